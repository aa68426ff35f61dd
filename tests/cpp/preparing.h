// Preparing a list on a store, and all that must hold then: of the region, of the rows, and of rolling them back.
#pragma once

#include "samples.h"
#include "world.h"

// The list is prepared as these rows. The region is that of the store with the rows and the locks that they keep, each row can be
// read, and rollback leaves the region from before. A receiver that holds the list, if it has room for it, is closed with the same
// answer and the same region.
void prepares(const Store &store, const std::vector<Edit> &edits, uint8_t mode, const std::vector<Row> &rows, AT_CALLER);

// The list is refused with this number and these places, and the region stays. So is a receiver that holds it.
void refuses(const Store &store, const std::vector<Edit> &edits, uint8_t mode, uint32_t number,
             const std::vector<uint64_t> &places = {}, AT_CALLER);

// Whatever our own store says to the list, the archive says too. If it is prepared, all rows are read, and it is rolled back,
// which leaves the region from before. Gives the number.
uint32_t prepare_and_roll_back(World &world, const Call &prepare, AT_CALLER);
