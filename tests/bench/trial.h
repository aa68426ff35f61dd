// One call on one region, beside everything that it is set beside.
#pragma once

#include "archive.h"
#include "image.h"
#include "timing.h"

#include <optional>

struct Trial {
    std::string what;
    Bytes region;
    std::vector<Call> calls; // mostly one; made one after the other
};

// What reads least beside the test: a row that no region has.
inline const Call LOOK = call::read_row(MOST_ROWS);

// What was measured. The time that restoring the region takes is taken off.
struct Result {
    uint32_t number = 0; // of the last call
    uint64_t place = 0;  // the first one of its answer
    Timed now, sum, checks, by_hand;
    std::optional<Timed> before, other;
};

// Runs it. A further subject may be measured among the others.
Result run(const Trial &trial, const Subject &other = {});
