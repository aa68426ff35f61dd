#include "text_samples.h"

#include "samples.h"

#include <cinttypes>
#include <cstdio>

namespace texts {

const std::string HEADER = "# pack-refs with: peeled fully-peeled sorted \n";

std::string ref(uint64_t object, std::string_view name)
{
    char digits[40 + 1];
    std::snprintf(digits, sizeof digits, "%040" PRIx64, object);
    return std::string(digits) + " " + std::string(name) + "\n";
}

std::string peeled(char digit) { return "^" + std::string(40, digit) + "\n"; }

Store shelves()
{
    Store s;
    s.setting = 1;
    s.entries = {
        {"HEAD", link(1), 0, FREE},
        {"refs/heads/aisle-7", object(12), 7, FREE},
        {"refs/tags/2026-11", {}, 65537, FREE},
        {"refs/heads/aisle-10", {}, 255, FREE},
        {"refs/heads/dock", object(9), 0, FREE},
    };
    return s;
}

std::string text_of_shelves()
{
    return "00000000000000000000000000000000000000ff refs/heads/aisle-10\n"
           "0000000000000000000000000000000000000007 refs/heads/aisle-7\n"
           "0000000000000000000000000000000000010001 refs/tags/2026-11\n";
}

std::string text_by_git()
{
    return "# pack-refs with: peeled fully-peeled sorted \n"
           "00000000000000000000000000000000000000ff refs/heads/aisle-10\n"
           "0000000000000000000000000000000000010001 refs/tags/2026-11\n"
           "^8f3a52c0d1e6b7948f3a52c0d1e6b7948f3a52c0\n"
           "0000000000000000000000000000000000000003 refs/tags/2026-12\n";
}

std::string wide_name(size_t n)
{
    char digits[3 + 1];
    std::snprintf(digits, sizeof digits, "%03u", unsigned(n % 1000));
    return "refs/tags/warehouse-north/hall-two/level-three/racking-aisle-" + std::string(digits);
}

Store widest(size_t step)
{
    Store s;
    s.setting = 2;
    for (size_t rest = 0; rest < step; rest++)
        for (size_t n = rest; n < MOST_NAMES; n += step)
            s.entries.push_back({wide_name(n), {}, n + 1, FREE});
    return s;
}

std::string widest_text()
{
    std::string text;
    for (size_t n = 0; n < MOST_NAMES; n++)
        text += ref(n + 1, wide_name(n));
    return text;
}

} // namespace texts
