// Random texts of packed tables, for a store as it stands.
#pragma once

#include "randoms.h"

// A text that is well formed: lines of names that the store has and of new ones, and here and there a comment or a peeled line. It
// may still have more new names than there is room for.
std::string good_text(Dice &dice, const Store &store);

// Such a text with something wrong, or nearly so: in its lines, their order or their bytes.
std::string damaged_text(Dice &dice, const Store &store);

// One or the other.
std::string random_text(Dice &dice, const Store &store);
