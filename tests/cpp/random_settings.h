// Random settings records and orders to write one, good and damaged.
#pragma once

#include "dice.h"
#include "settings.h"

// Settings in bounds, with 0 to 16 committers. Those of version 1 are of site 0.
settings::Settings random_settings(Dice &dice, uint64_t version);

// The bytes of a good record.
Bytes good_record(Dice &dice);

// A record that was good: its entries changed, and written with lengths that fit; or its bytes changed, cut, or put together with
// those of another.
Bytes damaged_record(Dice &dice);

// What to write: settings in bounds, or with a setting past them, or lists that do not fit each other.
settings::Order good_order(Dice &dice);
settings::Order damaged_order(Dice &dice);

// A buffer for it, of any bytes: too short, just long enough, or longer.
Bytes random_buffer(Dice &dice, const settings::Order &order);
