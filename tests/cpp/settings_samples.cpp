#include "settings_samples.h"

namespace settings {

Bytes bytes(std::string_view text) { return Bytes(text.begin(), text.end()); }

// As the document writes it, in pairs of digits.
static Bytes from_hex(std::string_view text)
{
    Bytes bytes;
    std::string digits;
    for (char c : text)
        if (c != ' ')
            digits += c;
    for (size_t i = 0; i + 1 < digits.size(); i += 2)
        bytes.push_back(uint8_t(std::stoul(digits.substr(i, 2), nullptr, 16)));
    return bytes;
}

Bytes example(uint64_t version)
{
    return version == VERSION_1 ? from_hex("01 00 23 00 02 01 01 00 02 02 01 00 19 03 00 0C 07 70 6C 61 6E 6E 65 72"
                                           "00 28 0B 6E 69 67 68 74 20 73 68 69 66 74")
                                : from_hex("02 00 28 00 02 01 01 00 02 02 01 00 19 03 00 0C 07 70 6C 61 6E 6E 65 72"
                                           "00 28 0B 6E 69 67 68 74 20 73 68 69 66 74 00 03 04 00 07");
}

Settings example_settings(uint64_t version)
{
    return {1, 1, version == VERSION_2 ? uint64_t(7) : 0, {{12, bytes("planner")}, {40, bytes("night shift")}}};
}

Settings none() { return {0, 1, 0, {}}; }

Settings committers(size_t count, size_t name_bytes)
{
    Settings s = none();
    for (size_t i = 0; i < count; i++)
        s.committers.push_back({i + 1, Bytes(name_bytes, uint8_t('a' + i))});
    return s;
}

Settings short_names()
{
    Settings s = committers(MOST_COMMITTERS, 1);
    s.log = 2;
    s.mode = 3;
    s.site = LAST_NUMBER;
    return s;
}

// The numbers are the last ones, so that each has both of its bytes.
Settings longest()
{
    Settings s = short_names();
    for (size_t i = 0; i < MOST_COMMITTERS; i++)
        s.committers[i] = {LAST_NUMBER - 15 + i, Bytes(MOST_NAME, uint8_t(16 * i))};
    return s;
}

Order example_order() { return order_of(VERSION_2, example_settings(VERSION_2)); }

} // namespace settings
