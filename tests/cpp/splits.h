// R1 of docs/SPEC.md: the rows that edits become.
#pragma once

#include "edits.h"

constexpr size_t MOST_ROUNDS = 5; // the last of them must not yield a child

// The rows of edits whose names are registered, in the order of the rounds, or none where the last round yields a child.
std::optional<std::vector<Row>> split(const Store &store, const std::vector<Edit> &edits);

// Of the names that two rows or more have, the least in byte order.
std::optional<uint16_t> least_repeated(const Store &store, const std::vector<Row> &rows);
