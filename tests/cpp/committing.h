// Committing a prepared transaction at each stop, each time on a fresh copy of its region, and all that must hold then.
#pragma once

#include "preparing.h"
#include "writes.h"

// The list is prepared, and its commit makes exactly these writes in this order. With an allowance of k it makes the first k of
// them, and the region is that of the store from before with just those. Goes on with stops_everywhere, and gives the store after
// all writes.
Store commits(const Store &store, const std::vector<Edit> &edits, uint8_t mode, const std::vector<Write> &writes,
              uint16_t committer = 1, AT_CALLER);

// A store with a transaction prepared, by calls that led there or not.
enum class Led { by_calls, by_nothing };

// The store is committed with every allowance from 0 to one more than there are writes, and with the largest, for committers 1, 0
// and 65,535 each. The archive does what our own store does, and the counts that it answers fit together. If calls led to the
// store, demand 3 is judged at each stop. Each row reads as in our own store, and so does its name at each stop of the first
// committer. Committers past 65,535 are refused.
void stops_everywhere(const Store &prepared, Led led, const std::string &what, AT_CALLER);
