// A store as the bytes of a region, and back, from docs/LAYOUT.md.
#pragma once

#include "store.h"

#include <optional>

using Bytes = std::vector<uint8_t>;

constexpr size_t REGION = 49549;

constexpr size_t AT_SETTING = 5;
constexpr size_t AT_NAME_COUNT = 6;
constexpr size_t AT_LINE_COUNT = 8;
constexpr size_t AT_MODE = 10;
constexpr size_t AT_ROW_COUNT = 11;
constexpr size_t AT_PACKED_LOCK = 12;

// A table of slots.
struct Table {
    size_t at;
    size_t width;
    size_t most;

    constexpr size_t slot(size_t i) const { return at + width * i; }
    constexpr size_t end() const { return slot(most); }
};

constexpr Table NAMES{13, 65, MOST_NAMES};
constexpr Table LOOSE{16653, 9, MOST_NAMES};
constexpr Table PACKED{18957, 8, MOST_NAMES};
constexpr Table LOCKS{21005, 1, MOST_NAMES};
constexpr Table ROWS{21261, 36, MOST_ROWS};
constexpr Table LINES{27021, 22, MOST_LINES};

static_assert(NAMES.end() == LOOSE.at && LOOSE.end() == PACKED.at && PACKED.end() == LOCKS.at);
static_assert(LOCKS.end() == ROWS.at && ROWS.end() == LINES.at && LINES.end() == REGION);

// Where the bytes of a name begin.
constexpr size_t name_offset(size_t n) { return NAMES.slot(n) + 1; }

// The bytes of a store, whether it is good or not. It has no more names, rows and lines than fit.
Bytes encode(const Store &store);

// The bits of the header and of the slots in use.
std::vector<size_t> bits_in_use(const Store &store);

// The store of a good region.
std::optional<Store> decode(const uint8_t *region, size_t size);
inline std::optional<Store> decode(const Bytes &region) { return decode(region.data(), region.size()); }
