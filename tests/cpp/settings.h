// The settings record of a site, from docs/SETTINGS.md: our own reader and writer of its bytes, and what the four calls give.
#pragma once

#include "calls.h"
#include "image.h"

namespace settings {

constexpr uint64_t VERSION_1 = 1, VERSION_2 = 2;
constexpr uint8_t LOG = 1, MODE = 2, COMMITTERS = 3, SITE = 4; // the tags
constexpr size_t MOST_COMMITTERS = 16, MOST_NAME = 32, MOST_BYTES = 579;
constexpr uint64_t LAST_NUMBER = 65535; // of a committer, and of a site

// A committer with its name, which may be any bytes.
struct Committer {
    uint64_t number;
    Bytes name;
};

// What a record says, in bounds or not.
struct Settings {
    uint64_t log = 1, mode = 1, site = 0;
    std::vector<Committer> committers;
};

// An entry of a record.
struct Entry {
    uint8_t tag;
    Bytes content;
};

// The entries of settings in a version. Each number is put down with as many bytes as the document gives it.
std::vector<Entry> entries_of(uint64_t version, const Settings &settings);

// A record of entries, whatever they are, with a length before each and before all of them that fits what follows.
Bytes bytes_of(uint64_t version, const std::vector<Entry> &entries);
inline Bytes bytes_of(uint64_t version, const Settings &settings) { return bytes_of(version, entries_of(version, settings)); }

// What a reader that knows a version makes of a record: 0, 23 or 24. With 0 it has what the record says, and where the names stand.
struct Reading {
    struct Found {
        uint64_t number;
        size_t name, length; // where its name begins, and how many bytes it has
    };

    uint32_t number = 0;
    uint64_t log = 0, mode = 0, site = 0;
    std::vector<Found> committers;
};
Reading read(const Bytes &record, uint64_t known);

// The same with the names' bytes.
Settings settings_of(const Bytes &record, const Reading &reading);

// What a writer is told.
struct Order {
    uint64_t version, log, mode, site;
    std::vector<uint64_t> numbers, lengths;
    Bytes names;
};
Order order_of(uint64_t version, const Settings &settings);

// What the calls give, with an answer record of the right size. Only one that is done changes the buffer, or the store.
Answer read_settings(const Reading &reading);
Answer read_committer(const Reading &reading, uint64_t place);
Answer write_settings(Bytes &buffer, const Order &order);
Answer start_with_settings(Store &store, const Bytes &record);

} // namespace settings
