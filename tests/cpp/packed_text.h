// The packed table as text, from docs/PACKED-TEXT.md: our own writer and reader, and what the two calls give.
#pragma once

#include "calls.h"

namespace packed_text {

constexpr size_t DIGITS = 40;
constexpr size_t MOST_BYTES = MOST_NAMES * (DIGITS + 1 + LONGEST_NAME + 1);

// The text of a store.
std::string text_of(const Store &store);

// Only a buffer that has room for the text is changed, and of it only as many bytes as the text has.
Answer write_packed(const Store &store, std::string &buffer);

// Only a text that is not refused changes the store.
Answer read_packed(Store &store, std::string_view text);

} // namespace packed_text
