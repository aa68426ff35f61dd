#include "settings.h"

#include <algorithm>
#include <optional>

namespace settings {

static bool in_bounds(uint64_t log, uint64_t mode, uint64_t site, size_t committers)
{
    return log <= 2 && mode >= 1 && mode <= 3 && site <= LAST_NUMBER && committers <= MOST_COMMITTERS;
}

// A committer behind one with a number, or behind none, which counts as 0.
static bool may_follow(uint64_t before, uint64_t number, size_t name_bytes)
{
    return before < number && number <= LAST_NUMBER && name_bytes >= 1 && name_bytes <= MOST_NAME;
}

// ---- writing

static void put(Bytes &bytes, uint64_t number, size_t width)
{
    for (size_t i = width; i-- > 0;)
        bytes.push_back(uint8_t(number >> 8 * i));
}

static void put(Bytes &bytes, const Bytes &more) { bytes.insert(bytes.end(), more.begin(), more.end()); }

static Bytes content_of(const std::vector<Committer> &committers)
{
    Bytes content;
    for (const Committer &committer : committers) {
        put(content, committer.number, 2);
        put(content, committer.name.size(), 1);
        put(content, committer.name);
    }
    return content;
}

std::vector<Entry> entries_of(uint64_t version, const Settings &s)
{
    std::vector<Entry> entries = {{LOG, {uint8_t(s.log)}}, {MODE, {uint8_t(s.mode)}}, {COMMITTERS, content_of(s.committers)}};
    if (version == VERSION_2) {
        entries.push_back({SITE, {}});
        put(entries.back().content, s.site, 2);
    }
    return entries;
}

Bytes bytes_of(uint64_t version, const std::vector<Entry> &entries)
{
    Bytes rest, record;
    for (const Entry &entry : entries) {
        put(rest, 1 + entry.content.size(), 2);
        put(rest, entry.tag, 1);
        put(rest, entry.content);
    }
    put(record, version, 1);
    put(record, rest.size(), 2);
    put(record, rest);
    return record;
}

Order order_of(uint64_t version, const Settings &s)
{
    Order order{version, s.log, s.mode, s.site, {}, {}, {}};
    for (const Committer &committer : s.committers) {
        order.numbers.push_back(committer.number);
        order.lengths.push_back(committer.name.size());
        put(order.names, committer.name);
    }
    return order;
}

// The settings that the lists say, if the lists fit each other and all is in bounds. A length is looked at before it is taken off
// what is left of the names, so no sum of lengths is ever made.
static std::optional<Settings> settings_of(const Order &order)
{
    Settings s{order.log, order.mode, order.site, {}};
    auto name = order.names.begin();
    uint64_t before = 0;
    if (order.numbers.size() != order.lengths.size() || !in_bounds(s.log, s.mode, s.site, order.numbers.size()))
        return std::nullopt;
    for (size_t i = 0; i < order.numbers.size(); i++) {
        const uint64_t number = order.numbers[i], length = order.lengths[i];
        if (!may_follow(before, number, length) || length > uint64_t(order.names.end() - name))
            return std::nullopt;
        s.committers.push_back({number, Bytes(name, name + std::ptrdiff_t(length))});
        before = number;
        name += std::ptrdiff_t(length);
    }
    return name == order.names.end() ? std::optional(s) : std::nullopt;
}

// ---- reading

static bool knows(uint64_t known, uint64_t version) { return version >= VERSION_1 && version <= known; }

static uint64_t number_at(const Bytes &bytes, size_t at) { return uint64_t(bytes[at]) << 8 | bytes[at + 1]; }

// An entry that stands in a record: its tag, and where its content begins and ends.
struct Stretch {
    uint8_t tag;
    size_t begin, end;

    size_t size() const { return end - begin; }
};

// The entries of a record, whatever they are, if every length is exact.
static std::optional<std::vector<Stretch>> split(const Bytes &record)
{
    std::vector<Stretch> entries;
    entries.reserve(8);
    if (record.size() < 3 || number_at(record, 1) != record.size() - 3)
        return std::nullopt;
    for (size_t at = 3; at < record.size();) {
        if (record.size() - at < 3)
            return std::nullopt;
        const size_t rest = number_at(record, at), end = at + 2 + rest;
        if (rest < 1 || end > record.size())
            return std::nullopt;
        entries.push_back({record[at + 2], at + 3, end});
        at = end;
    }
    return entries;
}

// The committers of an entry; false where one is out of bounds, or something is left over.
static bool read_committers(const Bytes &record, const Stretch &entry, std::vector<Reading::Found> &committers)
{
    size_t at = entry.begin;
    uint64_t before = 0;
    committers.reserve(MOST_COMMITTERS + 1);
    while (entry.end - at >= 3) {
        const size_t number = number_at(record, at), name = at + 3, length = record[at + 2];
        if (length > entry.end - name || !may_follow(before, number, length))
            return false;
        committers.push_back({number, name, length});
        before = number;
        at = name + length;
    }
    return at == entry.end;
}

// The tags of a version, in their order.
static bool are_those_of(uint64_t version, const std::vector<Stretch> &entries)
{
    static const uint8_t tags[] = {LOG, MODE, COMMITTERS, SITE};
    return std::equal(entries.begin(), entries.end(), tags, tags + (version == VERSION_2 ? 4 : 3),
                      [](const Stretch &entry, uint8_t tag) { return entry.tag == tag; });
}

Reading read(const Bytes &record, uint64_t known)
{
    Reading reading;
    reading.number = 24;
    if (known != VERSION_1 && known != VERSION_2)
        return reading;
    if (!record.empty() && !knows(known, record[0]))
        return reading;
    reading.number = 23;
    const auto entries = split(record);
    if (!entries || !are_those_of(record[0], *entries))
        return reading;
    const Stretch &log = (*entries)[0], &mode = (*entries)[1];
    if (log.size() != 1 || mode.size() != 1)
        return reading;
    reading.log = record[log.begin];
    reading.mode = record[mode.begin];
    if (entries->size() == 4) {
        const Stretch &site = (*entries)[3];
        if (site.size() != 2)
            return reading;
        reading.site = number_at(record, site.begin);
    }
    if (read_committers(record, (*entries)[2], reading.committers) &&
        in_bounds(reading.log, reading.mode, reading.site, reading.committers.size()))
        reading.number = 0;
    return reading;
}

Settings settings_of(const Bytes &record, const Reading &reading)
{
    Settings s{reading.log, reading.mode, reading.site, {}};
    for (const Reading::Found &found : reading.committers) {
        const auto name = record.begin() + std::ptrdiff_t(found.name);
        s.committers.push_back({found.number, Bytes(name, name + std::ptrdiff_t(found.length))});
    }
    return s;
}

// ---- the calls

Answer read_settings(const Reading &reading)
{
    if (reading.number != 0)
        return answer(reading.number);
    return answer(0, {reading.log, reading.mode, reading.site, reading.committers.size()});
}

Answer read_committer(const Reading &reading, uint64_t place)
{
    if (reading.number != 0)
        return answer(reading.number);
    if (place >= reading.committers.size())
        return answer(22);
    const Reading::Found &found = reading.committers[place];
    return answer(0, {found.number, found.name, found.length});
}

Answer write_settings(Bytes &buffer, const Order &order)
{
    if (order.version != VERSION_1 && order.version != VERSION_2)
        return answer(24);
    const auto settings = settings_of(order);
    if (!settings || (order.version == VERSION_1 && order.site != 0))
        return answer(23);
    const Bytes record = bytes_of(order.version, *settings);
    if (buffer.size() < record.size())
        return answer(33);
    std::copy(record.begin(), record.end(), buffer.begin());
    return answer(0, {record.size()});
}

Answer start_with_settings(Store &store, const Bytes &record)
{
    const Reading reading = read(record, VERSION_2);
    if (reading.number != 0)
        return answer(reading.number);
    store = Store{};
    store.setting = uint8_t(reading.log);
    return answer(0);
}

} // namespace settings
