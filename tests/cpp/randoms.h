// What random checks are made of: numbers, names, stores and edit lists.
#pragma once

#include "dice.h"
#include "store.h"

// An object's number: a small one, a large one, or any.
uint64_t object_number(Dice &dice);

// Mostly a number below n, else one at or past it.
uint64_t number_near(Dice &dice, uint64_t n);

// A name, and bytes that are one or nearly one.
std::string good_name(Dice &dice);
std::string some_name(Dice &dice);

// Mostly a name beneath one that the store has; or above one, or one that only begins with it.
std::string name_near(Dice &dice, const Store &store);

// A good store, with a transaction or without. In one of two many names lie beneath others.
Store random_store(Dice &dice, size_t names, size_t lines, bool with_rows);

// A store in which many names lie beneath others, and no look was taken at that: loose values may lie beneath loose values, and
// there may be rows that 25 would refuse. But for that it is good.
Store careless_store(Dice &dice, size_t names, size_t lines, bool with_rows);

// A good store on which many lists are prepared: few locks are foreign, and many names are links. Nothing is prepared. It is of
// some size, with a log that is short, or full, or nearly so; or it has this many names and lines.
Store ready_store(Dice &dice);
Store ready_store(Dice &dice, size_t names, size_t lines);

// An edit list for a store. Most are well formed and name each name once; the others have a byte changed, or a few more or fewer.
std::string random_list(Dice &dice, const Store &store);
