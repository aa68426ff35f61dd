#include "desk.h"

#include "dehlbazin.h"

#include <cstdlib>
#include <cstring>

static const uint8_t WATCHED = 0xA5, OLD = 0xEE;

static void same(bool ok, const char *what, const At &at)
{
    if (ok)
        passed();
    else
        failed(at, what);
}

Bytes bytes_of(const Answer &answer)
{
    Bytes bytes(8 * answer.places.size());
    for (size_t i = 0; i < bytes.size(); i++)
        bytes[i] = uint8_t(answer.places[i / 8] >> (56 - 8 * (i % 8)));
    return bytes;
}

std::string in_hex(const Bytes &bytes)
{
    static const char digits[] = "0123456789abcdef";
    std::string text;
    for (uint8_t byte : bytes) {
        text += digits[byte / 16];
        text += digits[byte % 16];
    }
    return text;
}

Tray::Tray(size_t most) : lent(most, WATCHED), watched(most, WATCHED) {}

uint8_t *Tray::place(size_t size)
{
    if (size > lent.size()) {
        failed({__FILE__, __LINE__}, "a check lends " + std::to_string(size) + " bytes, more than it has");
        std::abort();
    }
    if (used > size)
        std::memset(at(used), WATCHED, used - size);
    used = size;
    return size == 0 ? nullptr : at(size);
}

uint8_t *Tray::put(const Bytes &bytes)
{
    uint8_t *first = place(bytes.size());
    if (first)
        std::memcpy(first, bytes.data(), bytes.size());
    return first;
}

const uint64_t *Tray::put(const std::vector<uint64_t> &list)
{
    uint8_t *first = place(8 * list.size());
    if (first)
        std::memcpy(first, list.data(), 8 * list.size());
    return reinterpret_cast<const uint64_t *>(first);
}

bool Tray::holds(const void *bytes, size_t size) const
{
    const bool kept = size == used && (size == 0 || std::memcmp(at(used), bytes, size) == 0);
    return kept && std::memcmp(lent.data(), watched.data(), lent.size() - used) == 0;
}

// ---- the calls

Desk::Desk(size_t most) : records(most), buffers(most), numbers(most), lengths(most), names(most), answers(256) {}

uint8_t *Desk::clear(size_t answer_len) { return answers.put(Bytes(answer_len, OLD)); }

// What the archive gave, beside what it should: a call whose answer has another size gives 1 and writes nothing. What was read, or
// written into, is printed where the number is wrong.
void Desk::compare(uint32_t number, const Answer &wanted, size_t answer_len, const Bytes &lent, At at) const
{
    const bool fits = answer_len == DEHLBAZIN_ANSWER_SIZE;
    const uint32_t should = fits ? wanted.number : uint32_t(DEHLBAZIN_BAD_REGION);
    if (number == should)
        passed();
    else
        failed(at, "number " + std::to_string(number) + " instead of " + std::to_string(should) + ", of " + in_hex(lent));
    same(answers.holds(fits ? bytes_of(wanted) : Bytes(answer_len, OLD)), "the answer", at);
}

// What our own reader makes of a record. It is kept for the next call, which often asks the same.
const settings::Reading &Desk::reading_of(const Bytes &record, uint64_t known)
{
    if (record != last_record || known != last_known) {
        last_record = record;
        last_known = known;
        reading = settings::read(record, known);
    }
    return reading;
}

uint32_t Desk::reads(const Bytes &record, uint64_t known, size_t answer_len, At at)
{
    uint8_t *answer = clear(answer_len);
    const uint32_t number = dehlbazin_read_settings(records.put(record), record.size(), known, answer, answer_len);
    compare(number, settings::read_settings(reading_of(record, known)), answer_len, record, at);
    same(records.holds(record), "the record that was read", at);
    return number;
}

uint32_t Desk::reads_committer(const Bytes &record, uint64_t known, uint64_t place, size_t answer_len, At at)
{
    uint8_t *answer = clear(answer_len);
    const uint32_t number = dehlbazin_read_committer(records.put(record), record.size(), known, place, answer, answer_len);
    compare(number, settings::read_committer(reading_of(record, known), place), answer_len, record, at);
    same(records.holds(record), "the record that a committer was read of", at);
    return number;
}

uint32_t Desk::writes(const settings::Order &order, const Bytes &buffer, size_t answer_len, At at)
{
    uint8_t *answer = clear(answer_len), *room = buffers.put(buffer);
    const uint64_t *first = numbers.put(order.numbers), *second = lengths.put(order.lengths);
    const uint32_t number = dehlbazin_write_settings(
        room, buffer.size(), order.version, order.log, order.mode, order.site, first, order.numbers.size(), second,
        order.lengths.size(), names.put(order.names), order.names.size(), answer, answer_len);
    Bytes after = buffer;
    const Answer wanted = settings::write_settings(after, order);
    compare(number, wanted, answer_len, buffer, at);
    same(buffers.holds(answer_len == DEHLBAZIN_ANSWER_SIZE ? after : buffer), "the buffer", at);
    same(numbers.holds(order.numbers) && lengths.holds(order.lengths) && names.holds(order.names), "the three lists", at);
    return number;
}
