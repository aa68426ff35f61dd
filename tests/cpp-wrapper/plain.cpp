#include "step.h"

using dehlbazin::ReceiverBytes;
using dehlbazin::Region;

static void put(std::string &bytes, uint64_t number, int size)
{
    for (int shift = 8 * (size - 1); shift >= 0; shift -= 8)
        bytes += char(uint8_t(number >> shift));
}

std::string list_bytes(const std::vector<Fields> &edits)
{
    std::string bytes;
    put(bytes, 1, 1);
    put(bytes, 1 + 27 * edits.size(), 2);
    put(bytes, edits.size(), 1);
    for (const Fields &edit : edits) {
        put(bytes, edit.update ? 1 : 2, 1);
        put(bytes, edit.deref, 1);
        put(bytes, edit.log_only, 1);
        put(bytes, edit.force, 1);
        put(bytes, edit.expected, 1);
        put(bytes, edit.expected_kind, 1);
        put(bytes, edit.expected_number, 8);
        put(bytes, edit.next_kind, 1);
        put(bytes, edit.next_number, 8);
        put(bytes, edit.name, 2);
        put(bytes, edit.message, 2);
    }
    return bytes;
}

static uint32_t call_receiver(const Step &s, Region &region, ReceiverBytes &receiver, uint8_t *answer, size_t size)
{
    const uint8_t *lent = reinterpret_cast<const uint8_t *>(s.bytes.data());
    if (s.op == Op::fresh_receiver)
        return dehlbazin_fresh_receiver(receiver.data(), receiver.size(), answer, size);
    if (s.op == Op::take_fragment)
        return dehlbazin_take_fragment(receiver.data(), receiver.size(), lent, s.bytes.size(), answer, size);
    return dehlbazin_close_receiver(region.data(), region.size(), receiver.data(), receiver.size(), s.a, answer, size);
}

static uint32_t call(const Step &s, uint8_t *r, size_t n, uint8_t *answer, size_t size)
{
    const std::string bytes = s.op == Op::prepare ? list_bytes(s.edits) : s.bytes;
    const uint8_t *lent = reinterpret_cast<const uint8_t *>(bytes.data());
    switch (s.op) {
    case Op::start:
        return dehlbazin_start(r, n, s.a, answer, size);
    case Op::add_name:
        return dehlbazin_add_name(r, n, lent, bytes.size(), answer, size);
    case Op::name_bytes:
        return dehlbazin_name_bytes(r, n, s.a, answer, size);
    case Op::load_loose:
        return dehlbazin_load_loose(r, n, s.a, s.b, s.c, answer, size);
    case Op::load_packed:
        return dehlbazin_load_packed(r, n, s.a, s.b, s.c, answer, size);
    case Op::place_lock:
        return dehlbazin_place_lock(r, n, s.a, s.b, answer, size);
    case Op::lift_lock:
        return dehlbazin_lift_lock(r, n, s.a, s.b, answer, size);
    case Op::prepare:
        return dehlbazin_prepare(r, n, lent, bytes.size(), s.a, answer, size);
    case Op::commit:
        return dehlbazin_commit(r, n, s.a, s.b, answer, size);
    case Op::rollback:
        return dehlbazin_rollback(r, n, answer, size);
    case Op::read_name:
        return dehlbazin_read_name(r, n, s.a, answer, size);
    case Op::read_line:
        return dehlbazin_read_line(r, n, s.a, s.b, answer, size);
    case Op::start_with_settings:
        return dehlbazin_start_with_settings(r, n, lent, bytes.size(), answer, size);
    case Op::read_packed:
        return dehlbazin_read_packed(r, n, lent, bytes.size(), answer, size);
    default:
        return dehlbazin_read_row(r, n, s.a, answer, size);
    }
}

static uint32_t write_text(const Region &region, std::string &buffer, uint8_t *answer, size_t size)
{
    uint8_t *lent = reinterpret_cast<uint8_t *>(buffer.data());
    return dehlbazin_write_packed(region.data(), region.size(), lent, buffer.size(), answer, size);
}

Reply make_plainly(const Step &step, Region &region, ReceiverBytes &receiver)
{
    uint8_t answer[DEHLBAZIN_ANSWER_SIZE];
    Reply reply;
    if (step.op == Op::write_packed)
        reply.buffer.assign(step.a, OLD);
    const bool receives = step.op == Op::fresh_receiver || step.op == Op::take_fragment || step.op == Op::close_receiver;
    reply.number = receives                        ? call_receiver(step, region, receiver, answer, sizeof answer)
                   : step.op == Op::write_packed ? write_text(region, reply.buffer, answer, sizeof answer)
                                                   : call(step, region.data(), region.size(), answer, sizeof answer);
    for (size_t i = 0; i < reply.places.size(); i++)
        reply.places[i] = dehlbazin_place(answer, i);
    return reply;
}
