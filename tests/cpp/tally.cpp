#include "tally.h"

#include <cstdio>
#include <iterator>

void Tally::all_met(const char *what, const std::vector<size_t> &numbers) const
{
    std::printf("%s gave", what);
    for (size_t number = 0; number < std::size(given); number++)
        if (given[number] > 0)
            std::printf(" %zu: %zu", number, given[number].load());
    std::printf("\n");
    for (size_t number : numbers)
        check(given[number] > 0, std::string(what) + " never gave " + std::to_string(number));
}
