// How often each number was given, so that no number is missed by chance.
#pragma once

#include "check.h"

#include <atomic>
#include <cstddef>
#include <cstdint>
#include <iterator>
#include <vector>

struct Tally {
    std::atomic<size_t> given[34] = {};

    // A number that no call gives counts nowhere: that it was given is another check's failure.
    void add(uint32_t number)
    {
        if (number < std::size(given))
            given[number]++;
    }

    // Prints it, and checks that each of these numbers was given.
    void all_met(const char *what, const std::vector<size_t> &numbers) const;
};
