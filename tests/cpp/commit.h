// Committing a prepared transaction on a store, from docs/SPEC.md: where it is refused, where it stops, and what it leaves.
#pragma once

#include "calls.h"

constexpr uint64_t LAST_COMMITTER = 65535;

// What commit gives on a good store. The store is changed if the number is 0, 16 or 17.
Answer commit(Store &store, uint64_t committer, uint64_t allowance);
