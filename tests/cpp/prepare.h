// Preparing an edit list on a store, from docs/SPEC.md: R1 to R5, and the order in which a list is refused.
#pragma once

#include "calls.h"

// What prepare gives on a good store. The store is changed exactly if the number is 0.
Answer prepare(Store &store, std::string_view list, uint64_t mode);
