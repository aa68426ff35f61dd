#include "dock.h"

#include "dehlbazin.h"

#include <algorithm>

static const uint8_t OLD = 0xEE; // what stands in an answer before a call
static const size_t ANSWER = 128, LONGEST_ANSWER = 65536 + ANSWER;

Dock::Dock(size_t most)
    : receivers(most), fragments(most), regions(std::max(most, REGION)), answers(std::min(most, LONGEST_ANSWER))
{
}

uint8_t *Dock::clear(size_t answer_len) { return answers.put(Bytes(answer_len, OLD)); }

// What the archive gave, beside what it should: a call whose answer has another size gives 1 and writes nothing.
void Dock::compare(uint32_t number, const Answer &wanted, size_t answer_len, const std::string &what, At at) const
{
    const bool fits = answer_len == ANSWER;
    const uint32_t should = fits ? wanted.number : 1;
    if (number == should)
        passed();
    else
        failed(at, what + ": number " + std::to_string(number) + " instead of " + std::to_string(should));
    check(answers.holds(fits ? bytes_of(wanted) : Bytes(answer_len, OLD)), what + ": the answer", at);
}

// The store of a region, if it is good. It is kept for the next call, which often has the same.
const std::optional<Store> &Dock::store_of(const Bytes &region)
{
    if (region != last_region) {
        last_region = region;
        last_store = decode(region);
    }
    return last_store;
}

uint32_t Dock::freshens(Bytes &receiver, size_t answer_len, At at)
{
    uint8_t *answer = clear(answer_len);
    const uint32_t number = dehlbazin_fresh_receiver(receivers.put(receiver), receiver.size(), answer, answer_len);
    Bytes after = receiver;
    const Answer wanted = receiver::fresh_receiver(after);
    if (answer_len == ANSWER)
        receiver = after;
    compare(number, wanted, answer_len, "a fresh receiver", at);
    check(receivers.holds(receiver), "a fresh receiver: its bytes", at);
    return number;
}

uint32_t Dock::takes(Bytes &receiver, std::string_view fragment, size_t answer_len, At at)
{
    const Bytes bytes(fragment.begin(), fragment.end());
    uint8_t *answer = clear(answer_len);
    const uint32_t number = dehlbazin_take_fragment(receivers.put(receiver), receiver.size(), fragments.put(bytes), bytes.size(),
                                                    answer, answer_len);
    Bytes after = receiver;
    const Answer wanted = receiver::take_fragment(after, fragment);
    if (answer_len == ANSWER)
        receiver = after;
    compare(number, wanted, answer_len, "a fragment of " + std::to_string(bytes.size()), at);
    check(receivers.holds(receiver), "a fragment: the receiver's bytes", at);
    check(fragments.holds(bytes), "a fragment: its own bytes", at);
    return number;
}

uint32_t Dock::closes(const Bytes &region, Bytes &receiver, uint64_t mode, size_t answer_len, At at)
{
    uint8_t *answer = clear(answer_len), *lent = regions.put(region);
    const uint32_t number = dehlbazin_close_receiver(lent, region.size(), receivers.put(receiver), receiver.size(), mode, answer,
                                                     answer_len);
    std::optional<Store> store = store_of(region);
    Bytes after = receiver;
    const Answer wanted = receiver::close_receiver(store, after, mode);
    const bool fits = answer_len == ANSWER;
    if (fits)
        receiver = after;
    compare(number, wanted, answer_len, "closing in mode " + std::to_string(mode), at);
    check(receivers.holds(receiver), "closing: the receiver's bytes", at);
    check(regions.holds(fits && wanted.number == 0 ? encode(*store) : region), "closing: the region", at);
    return number;
}
