// Settings that the checks begin with.
#pragma once

#include "settings.h"

namespace settings {

Bytes bytes(std::string_view text);

// The whole examples of docs/SETTINGS.md, byte for byte: committers 12 'planner' and 40 'night shift', and in version 2 site 7.
Bytes example(uint64_t version);
Settings example_settings(uint64_t version);

// No committers, and the least of all else.
Settings none();

// 16 committers with names of one byte each, or of 32 bytes each; of site 65,535.
Settings short_names();
Settings longest();

// So many committers, numbered from 1, with names of so many bytes.
Settings committers(size_t count, size_t name_bytes);

// The order to write the example, in version 2.
Order example_order();

} // namespace settings
