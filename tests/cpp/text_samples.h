// Packed tables' texts that the checks begin with, and lines to make more of. Nothing here asks our own writer.
#pragma once

#include "store.h"

namespace texts {

// A ref line, whatever its name is; and a peeled one.
std::string ref(uint64_t object, std::string_view name);
std::string peeled(char digit = '7');

// What git writes first.
extern const std::string HEADER;

// The store of the example in docs/PACKED-TEXT.md, and its text. Setting 1.
Store shelves();
std::string text_of_shelves();

// The text there that git may have written. It adds a name, and leaves another out.
std::string text_by_git();

// So many names of 64 bytes that share the first 61, by number in byte order.
std::string wide_name(size_t n);

// 256 of them, the n-th with object n + 1, and the text. They arrive in steps: first those whose numbers leave no rest by so many,
// then those that leave 1, and so on.
Store widest(size_t step = 1);
std::string widest_text();

} // namespace texts
