#include "entries.h"

#include "check.h"
#include "dehlbazin.h"
#include "lent.h"

#include <csignal>
#include <unistd.h>

// What is being done, for the handler of crashes.
static const char *current_part;
static thread_local const Call *current;
static thread_local size_t current_region_len, current_answer_len;

static void crashed(int signal)
{
    std::string what = std::string("in the part ") + current_part;
    if (current)
        what += ", " + describe(*current) + " with a region of " + std::to_string(current_region_len) + " and a record of " +
                std::to_string(current_answer_len);
    failed({__FILE__, __LINE__}, what + ": the program crashed with signal " + std::to_string(signal));
    closing();
    _exit(1);
}

void watch_for_crashes(const char *part)
{
    current_part = part;
    for (int signal : {SIGSEGV, SIGBUS, SIGILL, SIGFPE, SIGABRT})
        std::signal(signal, crashed);
}

// Lends a call its own bytes, which it only reads.
template <typename Made> static uint32_t lend(const std::string &text, const Made &made)
{
    if (text.empty())
        return made(nullptr, 0);
    const Bytes bytes(text.begin(), text.end());
    Lent lent(bytes);
    uint32_t number = made(lent.data(), lent.size());
    return lent.holds(bytes) && lent.is_alone() ? number : ~uint32_t(0);
}

// Lends a call a buffer, which it may write into if it is done.
template <typename Made> static uint32_t lend_buffer(const std::string &before, std::string *left, const Made &made)
{
    const Bytes bytes(before.begin(), before.end());
    Lent lent(bytes);
    uint32_t number = made(before.empty() ? nullptr : lent.data(), lent.size());
    if (left)
        left->assign(lent.data(), lent.data() + lent.size());
    return lent.is_alone() && (number == DEHLBAZIN_DONE || lent.holds(bytes)) ? number : ~uint32_t(0);
}

static uint32_t make(const Call &call, uint8_t *region, size_t region_len, uint8_t *answer, size_t answer_len, std::string *left)
{
    switch (call.op) {
    case Op::start:
        return dehlbazin_start(region, region_len, call.a, answer, answer_len);
    case Op::add_name:
        return lend(call.bytes, [&](const uint8_t *name, size_t name_len) {
            return dehlbazin_add_name(region, region_len, name, name_len, answer, answer_len);
        });
    case Op::name_bytes:
        return dehlbazin_name_bytes(region, region_len, call.a, answer, answer_len);
    case Op::load_loose:
        return dehlbazin_load_loose(region, region_len, call.a, call.b, call.c, answer, answer_len);
    case Op::load_packed:
        return dehlbazin_load_packed(region, region_len, call.a, call.b, call.c, answer, answer_len);
    case Op::place_lock:
        return dehlbazin_place_lock(region, region_len, call.a, call.b, answer, answer_len);
    case Op::lift_lock:
        return dehlbazin_lift_lock(region, region_len, call.a, call.b, answer, answer_len);
    case Op::prepare:
        return lend(call.bytes, [&](const uint8_t *list, size_t list_len) {
            return dehlbazin_prepare(region, region_len, list, list_len, call.a, answer, answer_len);
        });
    case Op::commit:
        return dehlbazin_commit(region, region_len, call.a, call.b, answer, answer_len);
    case Op::rollback:
        return dehlbazin_rollback(region, region_len, answer, answer_len);
    case Op::read_name:
        return dehlbazin_read_name(region, region_len, call.a, answer, answer_len);
    case Op::read_line:
        return dehlbazin_read_line(region, region_len, call.a, call.b, answer, answer_len);
    case Op::read_row:
        return dehlbazin_read_row(region, region_len, call.a, answer, answer_len);
    case Op::write_packed:
        return lend_buffer(call.bytes, left, [&](uint8_t *buffer, size_t buffer_len) {
            return dehlbazin_write_packed(region, region_len, buffer, buffer_len, answer, answer_len);
        });
    case Op::read_packed:
        return lend(call.bytes, [&](const uint8_t *text, size_t text_len) {
            return dehlbazin_read_packed(region, region_len, text, text_len, answer, answer_len);
        });
    }
    return ~uint32_t(0);
}

uint32_t run(const Call &call, uint8_t *region, size_t region_len, uint8_t *answer, size_t answer_len, std::string *left)
{
    if (left)
        *left = call.bytes;
    current = &call;
    current_region_len = region_len;
    current_answer_len = answer_len;
    uint32_t number = make(call, region, region_len, answer, answer_len, left);
    current = nullptr;
    return number;
}
