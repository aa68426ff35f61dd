#include "random_settings.h"

#include "samples.h"

#include <algorithm>
#include <set>

using namespace settings;

static Bytes random_bytes(Dice &dice, size_t count)
{
    Bytes bytes(count);
    for (uint8_t &byte : bytes)
        byte = uint8_t(dice.any());
    return bytes;
}

// Mostly a short name, and often one at its bounds.
static Bytes random_name(Dice &dice)
{
    const size_t lengths[] = {1, 1, 2, 3, 7, 11, 31, 32, 1 + dice.below(MOST_NAME)};
    return random_bytes(dice, dice.one_of(lengths));
}

// Rising numbers, close together or far apart.
static std::vector<uint64_t> random_numbers(Dice &dice, size_t count)
{
    const uint64_t among = dice.once_in(2) ? count + dice.below(4) : LAST_NUMBER;
    const uint64_t first = dice.once_in(2) ? 1 : LAST_NUMBER - among + 1;
    std::set<uint64_t> numbers;
    while (numbers.size() < count)
        numbers.insert(first + dice.below(among));
    return {numbers.begin(), numbers.end()};
}

Settings random_settings(Dice &dice, uint64_t version)
{
    const size_t counts[] = {0, 1, 2, 3, 15, 16, dice.below(MOST_COMMITTERS + 1)};
    const uint64_t sites[] = {0, 1, 255, 256, 65535, dice.below(65536)};
    Settings s;
    s.log = dice.below(3);
    s.mode = 1 + dice.below(3);
    s.site = version == VERSION_2 ? dice.one_of(sites) : 0;
    for (uint64_t number : random_numbers(dice, dice.one_of(counts)))
        s.committers.push_back({number, random_name(dice)});
    return s;
}

static uint64_t random_version(Dice &dice) { return 1 + dice.below(2); }

Bytes good_record(Dice &dice)
{
    const uint64_t version = random_version(dice);
    return bytes_of(version, random_settings(dice, version));
}

// ---- settings that no record can hold

// A committer's number or name past its bounds, or two of them in the wrong order.
static void damage_committers(Dice &dice, std::vector<Committer> &committers)
{
    if (committers.empty() || dice.once_in(6)) {
        while (committers.size() <= MOST_COMMITTERS)
            committers.push_back({committers.empty() ? 1 : committers.back().number + 1, random_name(dice)});
        return;
    }
    const size_t at = dice.below(committers.size()), other = dice.below(committers.size());
    switch (dice.below(6)) {
    case 0:
        committers[at].number = 0;
        break;
    case 1:
        committers[at].number = committers[other].number;
        break;
    case 2:
        std::swap(committers[at], committers[other]);
        break;
    case 3:
        committers[at].name.clear();
        break;
    case 4:
        committers[at].name = random_bytes(dice, dice.once_in(2) ? MOST_NAME + 1 : 255);
        break;
    default:
        committers[at].number = dice.one_of(too_large(committers[at].number));
    }
}

static void damage_settings(Dice &dice, Settings &s)
{
    const uint64_t logs[] = {3, 4, 255, dice.any()}, modes[] = {0, 4, 5, 255, dice.any()};
    switch (dice.below(4)) {
    case 0:
        s.log = dice.once_in(2) ? dice.one_of(logs) : dice.one_of(too_large(s.log));
        break;
    case 1:
        s.mode = dice.once_in(2) ? dice.one_of(modes) : dice.one_of(too_large(s.mode));
        break;
    default:
        damage_committers(dice, s.committers);
    }
}

// ---- entries that are none

static void damage_entries(Dice &dice, std::vector<settings::Entry> &entries)
{
    const size_t at = dice.below(entries.size()), other = dice.below(entries.size());
    const settings::Entry copy = entries[at];
    Bytes &content = entries[at].content;
    const uint8_t byte = uint8_t(dice.below(5));
    switch (dice.below(7)) {
    case 0:
        std::swap(entries[at], entries[other]);
        break;
    case 1:
        entries.insert(entries.begin() + std::ptrdiff_t(other), copy);
        break;
    case 2:
        entries.erase(entries.begin() + std::ptrdiff_t(at));
        break;
    case 3:
        entries[at].tag = uint8_t(dice.once_in(2) ? dice.below(6) : dice.any());
        break;
    case 4:
        content.insert(content.begin() + std::ptrdiff_t(dice.below(content.size() + 1)), byte);
        break;
    case 5:
        if (!content.empty())
            content.erase(content.begin() + std::ptrdiff_t(dice.below(content.size())));
        break;
    default:
        entries.push_back({uint8_t(dice.below(7)), random_bytes(dice, dice.below(4))});
    }
}

// ---- bytes that are none

// Where a record has a length: its own, those of its entries, and those of names.
static std::vector<size_t> places_of_lengths(const Bytes &record)
{
    const Reading reading = read(record, VERSION_2);
    std::vector<size_t> places = {1, 2, 3, 4, 7, 8, 11, 12};
    for (const Reading::Found &found : reading.committers)
        places.push_back(found.name - 1);
    if (record[0] == VERSION_2)
        places.insert(places.end(), {record.size() - 5, record.size() - 4});
    return places;
}

static Bytes spliced(Dice &dice, const Bytes &record)
{
    const Bytes other = good_record(dice);
    Bytes bytes(record.begin(), record.begin() + std::ptrdiff_t(dice.below(record.size() + 1)));
    const size_t from = dice.once_in(2) ? std::min(bytes.size(), other.size()) : dice.below(other.size() + 1);
    bytes.insert(bytes.end(), other.begin() + std::ptrdiff_t(from), other.end());
    return bytes;
}

static void damage_bytes(Dice &dice, Bytes &record)
{
    const size_t at = dice.below(record.size());
    const uint8_t byte = uint8_t(dice.below(6));
    switch (dice.below(7)) {
    case 0:
        record[at] ^= uint8_t(1 << dice.below(8));
        break;
    case 1:
        record[at] = uint8_t(dice.any());
        break;
    case 2:
        record.resize(dice.below(record.size()));
        break;
    case 3:
        record.insert(record.end(), 1 + dice.below(5), byte);
        break;
    case 4:
        record = spliced(dice, record);
        break;
    case 5:
        record[dice.below(std::min<size_t>(record.size(), 14))] = byte;
        break;
    default:
        record[dice.one_of(places_of_lengths(record))] += dice.once_in(2) ? 1 : 255;
    }
}

Bytes damaged_record(Dice &dice)
{
    const uint64_t version = random_version(dice);
    Settings s = random_settings(dice, version);
    if (dice.once_in(3))
        damage_settings(dice, s);
    std::vector<settings::Entry> entries = entries_of(dice.once_in(12) ? 3 - version : version, s);
    if (dice.once_in(3))
        damage_entries(dice, entries);
    Bytes record = bytes_of(dice.once_in(30) ? dice.any() : version, entries);
    if (record.size() >= 14 && dice.once_in(2))
        damage_bytes(dice, record);
    return record;
}

// ---- orders

Order good_order(Dice &dice)
{
    const uint64_t version = random_version(dice);
    return order_of(version, random_settings(dice, version));
}

// Another count of numbers, lengths or bytes; lengths that are others with the same sum, or with that sum modulo 2^64.
static void damage_lists(Dice &dice, Order &order)
{
    const size_t count = order.lengths.size();
    switch (count < 2 ? dice.below(3) : dice.below(6)) {
    case 0:
        order.numbers.resize(dice.below(MOST_COMMITTERS + 3), LAST_NUMBER);
        break;
    case 1:
        order.lengths.resize(dice.below(MOST_COMMITTERS + 3), 1);
        break;
    case 2:
        order.names.resize(dice.once_in(2) ? dice.below(order.names.size() + 40) : order.names.size() + 1);
        break;
    case 3:
        order.lengths[0] += order.lengths[1];
        order.lengths[1] = 0;
        break;
    case 4: {
        const size_t at = dice.below(count), other = (at + 1) % count;
        const uint64_t amount = dice.once_in(2) ? uint64_t(1) << dice.below(64) : dice.any();
        order.lengths[at] += amount;
        order.lengths[other] -= amount;
        break;
    }
    default:
        order.lengths[dice.below(count)] = dice.any();
    }
}

Order damaged_order(Dice &dice)
{
    const uint64_t version = random_version(dice), versions[] = {0, 3, 255, dice.one_of(too_large(version)), dice.any()};
    Settings s = random_settings(dice, version);
    if (dice.once_in(3))
        s.site = dice.once_in(2) ? 1 + dice.below(65535) : dice.one_of(too_large(s.site));
    if (dice.once_in(3))
        damage_settings(dice, s);
    Order order = order_of(dice.once_in(10) ? dice.one_of(versions) : version, s);
    if (dice.once_in(2))
        damage_lists(dice, order);
    return order;
}

Bytes random_buffer(Dice &dice, const Order &order)
{
    const size_t size = 14 + 3 * order.numbers.size() + order.names.size() + (order.version == VERSION_2 ? 5 : 0);
    const size_t sizes[] = {size, size, size, size - 1, size + 1, size + dice.below(64), dice.below(size), 0, MOST_BYTES};
    return random_bytes(dice, std::min<size_t>(dice.one_of(sizes), 1000));
}
