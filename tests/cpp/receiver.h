// The receiver of an edit list that arrives in fragments, from docs/SPEC.md: our own reader and writer of its bytes, and what the
// three calls give.
#pragma once

#include "calls.h"
#include "image.h"

namespace receiver {

constexpr size_t ROOM = 3 + 1 + 27 * 32; // the longest list
constexpr size_t AT_BYTES = 2;           // before them stands how many they are, big-endian
constexpr size_t SIZE = AT_BYTES + ROOM;

// A receiver that holds nothing, and one that holds these bytes, which are no more than there is room for.
Bytes fresh();
Bytes holding(std::string_view held);

// What a good receiver holds. None is what no fragments leave.
std::optional<std::string> held(const Bytes &receiver);

// What the calls give, with an answer record of the right size, and what they make of the receiver. A refusal leaves it as it is,
// but for that of a closing.
Answer fresh_receiver(Bytes &receiver);
Answer take_fragment(Bytes &receiver, std::string_view fragment);

// The receiver is looked at first. Then no store is a region that is not good. The store is changed exactly if the number is 0.
Answer close_receiver(std::optional<Store> &store, Bytes &receiver, uint64_t mode);

} // namespace receiver
