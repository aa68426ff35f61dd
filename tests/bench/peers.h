// What the calls are set beside.
#pragma once

#include "calls.h"
#include "image.h"

// One pass over the region: the floor under the rule that every call tests its whole region.
uint64_t sum(const Bytes &region);

// The checks by hand, those of tests/cpp: a store is read from the region if it is good.
bool check_by_hand(const Bytes &region);

// The whole call by hand: the checks, the call on the store that was read, and the region of what it leaves. Gives its number.
uint32_t call_by_hand(const Bytes &region, const Call &call, Bytes &left);

// Whether the call changes a region where it is done.
bool is_change(Op op);
