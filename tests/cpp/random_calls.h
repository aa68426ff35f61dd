// Random calls for a store as it stands.
#pragma once

#include "calls.h"
#include "randoms.h"

// Any of the fifteen, with numbers that are good for the most part.
Call random_call(Dice &dice, const Store &store);

// Mostly a list in a good mode.
Call random_prepare(Dice &dice, const Store &store);

// Mostly a good committer, and an allowance about the number of writes or far past it.
Call random_commit(Dice &dice, const Store &store);

// Into a buffer that is long enough, or nearly so, or much too short.
Call random_write_packed(Dice &dice, const Store &store);

// Mostly the call that brings a store on its way to a commit: names and values first, then a list, then the commit.
Call next_call(Dice &dice, const Store &store);
