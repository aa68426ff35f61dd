// Thirteen entries of an archive, which older ones have too. Two archives export the same names, so those of an older one get a
// prefix before they are linked (tools/bench), and both are called in one run.
#pragma once

#include "calls.h"
#include "dehlbazin.h"

#define ENTRIES(each)                                                                                                        \
    each(start) each(add_name) each(name_bytes) each(load_loose) each(load_packed) each(place_lock) each(lift_lock)          \
        each(prepare) each(commit) each(rollback) each(read_name) each(read_line) each(read_row)

struct Archive {
#define POINTER(name) decltype(&dehlbazin_##name) name;
    ENTRIES(POINTER)
#undef POINTER
};

extern const Archive NOW;
extern const Archive *const BEFORE; // null where no older archive was given

// Makes the call on a region and a record of the right sizes, and gives its number. It is one of the thirteen.
uint32_t make(const Archive &archive, const Call &call, uint8_t *region, uint8_t *record);
