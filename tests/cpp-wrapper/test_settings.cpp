// The settings of a site: written, read, and a store started with them; each call done and refused, and beside the plain calls.
#include "dice.h"
#include "parts.h"
#include "site.h"
#include "tally.h"

#include <algorithm>

static const SettingsVersion FIRST = SettingsVersion::first, SECOND = SettingsVersion::second, THIRD = SettingsVersion(3);

static Settings example(SiteNumber number = SiteNumber{7})
{
    Settings settings(Setting::normal, Mode::deletions, number);
    done(settings.add_committer(Committer(12), "planner"));
    done(settings.add_committer(Committer(40), "night shift"));
    return settings;
}

// The example of docs/SETTINGS.md, in version 2.
static std::string example_bytes()
{
    static const uint8_t head[] = {2, 0, 0x28, 0, 2, 1, 1, 0, 2, 2, 1, 0, 0x19, 3, 0, 12, 7}, second[] = {0, 40, 11},
                         site[] = {0, 3, 4, 0, 7};
    return std::string(std::begin(head), std::end(head)) + "planner" + std::string(std::begin(second), std::end(second)) +
           "night shift" + std::string(std::begin(site), std::end(site));
}

// A record that was written.
struct Record {
    Record(const Settings &settings, SettingsVersion version) : size(settings.write(buffer, version).value()) {}

    const uint8_t *data() const { return buffer.data(); }
    Result<SettingsView> open(SettingsVersion known) const { return SettingsView::open(data(), size, known); }
    Result<Settings> read(SettingsVersion known) const { return Settings::read(data(), size, known); }

    SettingsBuffer buffer{};
    size_t size;
};

static void test_write()
{
    const Record record(example(), SECOND);
    check(std::string(record.data(), record.data() + record.size) == example_bytes(), "the example's bytes");
    check(Record(example(SiteNumber(0)), FIRST).size == 38, "the example in version 1");
    std::array<uint8_t, 60> buffer;
    auto refuses = [&](const Settings &settings, size_t size, SettingsVersion version, Reason reason, AT_CALLER) {
        buffer.fill(0xEE);
        const auto before = buffer;
        refused(settings.write(buffer.data(), size, version), reason, {}, at);
        check(buffer == before, "a refusal changes no byte", at);
    };
    refuses(example(), 42, SECOND, Reason::short_buffer);
    refuses(example(), 60, FIRST, Reason::malformed_record); // a site in version 1
    refuses(example(), 60, THIRD, Reason::unknown_version);
    refuses(example(), 60, SettingsVersion(uint64_t(1) << 32 | 2), Reason::unknown_version); // not cut down to 2
    refuses(example(SiteNumber(65536)), 60, SECOND, Reason::malformed_record);
    refuses(Settings(Setting(3), Mode::updates), 60, SECOND, Reason::malformed_record);
    refuses(Settings(Setting(uint64_t(1) << 32), Mode::updates), 60, SECOND, Reason::malformed_record);
    refuses(Settings(Setting::never, Mode(0)), 60, SECOND, Reason::malformed_record);
    refused(example().write(nullptr, 60, SECOND), Reason::short_buffer);
    buffer.fill(0xEE);
    check(example().write(buffer.data(), 60, SECOND).value() == 43, "43 bytes of 60");
    check(std::all_of(buffer.begin() + 43, buffer.end(), [](uint8_t byte) { return byte == 0xEE; }), "the others stay");
}

// What the type cannot hold is refused where it is added; all else by write.
static void test_committers()
{
    Settings settings(Setting::always, Mode::updates_remove_loose);
    const std::string longest(32, 'x');
    refused(settings.add_committer(Committer(1), longest + "x"), Reason::malformed_record);
    check(settings.committer_count() == 0, "still none");
    for (uint64_t n = 1; n <= 16; n++)
        done(settings.add_committer(Committer(n), longest));
    refused(settings.add_committer(Committer(17), "x"), Reason::malformed_record);
    check(settings.committer_count() == 16 && Record(settings, SECOND).size == DEHLBAZIN_SETTINGS_MOST_BYTES, "the longest record");
    auto refuses = [](uint64_t first, uint64_t second, std::string_view name, AT_CALLER) {
        Settings s(Setting::normal, Mode::updates);
        SettingsBuffer buffer;
        done(s.add_committer(Committer(first), "a"), at);
        done(s.add_committer(Committer(second), name), at);
        refused(s.write(buffer, SECOND), Reason::malformed_record, {}, at);
    };
    refuses(0, 1, "b");
    refuses(2, 2, "b");
    refuses(3, 2, "b");
    refuses(1, 65536, "b");
    refuses(1, (uint64_t(1) << 32) + 2, "b");
    refuses(1, 2, "");
    refuses(1, 2, std::string_view());
}

static void test_read()
{
    const Record record(example(), SECOND);
    refused(record.open(FIRST), Reason::unknown_version);
    refused(record.read(FIRST), Reason::unknown_version);
    refused(record.open(THIRD), Reason::unknown_version);
    refused(record.open(SettingsVersion(uint64_t(1) << 32 | 2)), Reason::unknown_version);
    refused(SettingsView::open(record.data(), record.size - 1, SECOND), Reason::malformed_record);
    refused(Settings::read(record.data(), record.size + 1, SECOND), Reason::malformed_record);
    refused(SettingsView::open(nullptr, 43, SECOND), Reason::malformed_record);
    refused(Settings::read(nullptr, 0, FIRST), Reason::malformed_record);
    const SettingsView view = record.open(SECOND).value();
    check(view.log() == Setting::normal && view.mode() == Mode::deletions && view.site() == SiteNumber(7), "the settings");
    check(view.committer_count() == 2, "two committers");
    const SiteCommitter second = view.committer(1).value();
    check(second.number == Committer(40) && second.name == "night shift", "the second committer");
    check(second.name.data() == reinterpret_cast<const char *>(record.data()) + 27, "its name stands in the record");
    refused(view.committer(2), Reason::nothing_there);
    refused(view.committer(uint64_t(1) << 32), Reason::nothing_there);
    std::string names;
    auto walk = view.committers();
    for (const SiteCommitter &committer : walk)
        names += std::to_string(committer.number.number()) + " " + std::string(committer.name) + ";";
    check(names == "12 planner;40 night shift;" && !walk.refusal(), names);
    for (SettingsVersion known : {FIRST, SECOND})
        check(Record(example(SiteNumber(0)), FIRST).open(known).value().site() == SiteNumber(0), "version 1 is of site 0");
}

static void test_copied()
{
    Record record(example(), SECOND);
    const Settings settings = record.read(SECOND).value();
    record.buffer.fill(0);
    check(settings.log() == Setting::normal && settings.mode() == Mode::deletions && settings.site() == SiteNumber(7), "the same");
    check(settings.committer_count() == 2, "two committers");
    check(settings.committer(0).value().name == "planner" && settings.committer(1).value().number == Committer(40), "the same");
    refused(settings.committer(2), Reason::nothing_there);
    const Record again(settings, SECOND);
    check(std::string(again.data(), again.data() + again.size) == example_bytes(), "and the same bytes");
    Settings grown = settings;
    done(grown.add_committer(Committer(41), grown.committer(0).value().name)); // a name of its own
    check(grown.committer(2).value().name == "planner" && settings.committer_count() == 2, "a copy is grown");
}

// A bad record of a walk that began with a good one.
static void test_spoilt()
{
    Record record(example(), SECOND);
    const SettingsView view = record.open(SECOND).value();
    record.buffer[3] = 9;
    auto walk = view.committers();
    size_t seen = 0;
    for (const SiteCommitter &committer : walk)
        seen += committer.name.size();
    check(seen == 0 && walk.refusal() && walk.refusal()->reason() == Reason::malformed_record, "a walk over a spoilt record");
}

static void test_start()
{
    Region region, plain;
    for (Setting log : {Setting::never, Setting::normal, Setting::always}) {
        region.fill(0xff);
        const Record record(Settings(log, Mode::updates, SiteNumber(9)), SECOND);
        done(Store::start_with_settings(region, record.data(), record.size));
        done(Store::start(plain, log));
        check(region == plain, "the region of a plain start");
    }
    const Record record(example(), SECOND);
    refused(Store::start_with_settings(region, record.data(), record.size - 1), Reason::malformed_record);
    refused(Store::start_with_settings(region, nullptr, 43), Reason::malformed_record);
    refused(Store::start_with_settings(region.data(), region.size() - 1, record.data(), record.size), Reason::bad_region);
    refused(Store::start_with_settings(nullptr, region.size(), record.data(), record.size), Reason::bad_region);
    const std::string longer = example_bytes() + std::string(5000, 'x'), later = "\x03" + longer;
    for (const auto &[bytes, reason] : {std::pair(longer, Reason::malformed_record), {later, Reason::unknown_version}})
        refused(Store::start_with_settings(region, reinterpret_cast<const uint8_t *>(bytes.data()), bytes.size()), reason);
    check(region == plain, "refusals change nothing");

    // A record that stands in the region itself; and a transaction that is over by a start.
    std::copy(record.data(), record.data() + record.size, region.begin() + 100);
    done(Store::start_with_settings(region, region.data() + 100, record.size));
    Marked site;
    auto transaction = site.store.prepare(list_of({Update(head, object(7))})).value();
    refused(site.store.restart_with_settings(record.data(), 5), Reason::malformed_record);
    check(transaction.prepared(), "it stays prepared");
    done(site.store.restart_with_settings(record.data(), record.size));
    check(!transaction.prepared() && site.region == region, "it is over, and the store is empty");
}

// ---- beside the plain calls

// Settings as numbers and names, near their bounds.
struct Numbers {
    uint64_t version, log, mode, site;
    std::vector<uint64_t> numbers, lengths;
    std::string names;
};

static Numbers some_numbers(Dice &dice)
{
    Numbers n;
    n.version = dice.once_in(20) ? dice.below(4) : 1 + dice.below(2);
    n.log = dice.once_in(20) ? 3 + dice.any() : dice.below(3);
    n.mode = dice.once_in(20) ? dice.below(6) : 1 + dice.below(3);
    n.site = n.version == 1 && !dice.once_in(10) ? 0 : dice.below(65540);
    const uint64_t count = dice.once_in(8) ? 16 : dice.below(6);
    uint64_t last = 0;
    for (uint64_t i = 0; i < count; i++) {
        last += dice.once_in(40) ? 0 : dice.once_in(40) ? 65530 : 1 + dice.below(900);
        n.numbers.push_back(last);
        n.lengths.push_back(dice.once_in(60) ? 0 : 1 + dice.below(32));
        for (uint64_t j = 0; j < n.lengths.back(); j++)
            n.names += char(dice.any());
    }
    return n;
}

static Settings typed(const Numbers &n)
{
    Settings settings(Setting(n.log), Mode(n.mode), SiteNumber(n.site));
    size_t at = 0;
    for (size_t i = 0; i < n.numbers.size(); i++) {
        done(settings.add_committer(Committer(n.numbers[i]), std::string_view(n.names).substr(at, n.lengths[i])));
        at += n.lengths[i];
    }
    return settings;
}

using Answer = std::array<uint8_t, DEHLBAZIN_ANSWER_SIZE>;
using Buffer = std::array<uint8_t, DEHLBAZIN_SETTINGS_MOST_BYTES + 5>;

static size_t write_both_ways(const Numbers &n, size_t room, Buffer &plain, Tally &tally)
{
    Answer answer;
    plain.fill(0xEE);
    Buffer own = plain;
    const uint32_t number = dehlbazin_write_settings(
        plain.data(), room, n.version, n.log, n.mode, n.site, n.numbers.data(), n.numbers.size(), n.lengths.data(),
        n.lengths.size(), reinterpret_cast<const uint8_t *>(n.names.data()), n.names.size(), answer.data(), answer.size());
    const Result<size_t> written = typed(n).write(own.data(), room, SettingsVersion(n.version));
    check(written.number() == number && own == plain, "the number and the bytes of both");
    check(!written || *written.get() == dehlbazin_place(answer.data(), 0), "the length of both");
    tally.add(number);
    return number == 0 ? size_t(dehlbazin_place(answer.data(), 0)) : 0;
}

static void read_both_ways(const uint8_t *record, size_t size, uint64_t known, Tally &tally)
{
    Answer answer;
    const uint32_t number = dehlbazin_read_settings(record, size, known, answer.data(), answer.size());
    const Result<SettingsView> view = SettingsView::open(record, size, SettingsVersion(known));
    check(view.number() == number && Settings::read(record, size, SettingsVersion(known)).number() == number, "both numbers");
    tally.add(number);
    if (!view)
        return;
    const auto place = [&](size_t i) { return dehlbazin_place(answer.data(), i); };
    const SettingsView &v = *view.get();
    check(uint64_t(v.log()) == place(0) && uint64_t(v.mode()) == place(1) && v.site().number() == place(2) &&
              v.committer_count() == place(3),
          "what both read");
    for (uint64_t i = 0; i <= v.committer_count(); i++) {
        const uint32_t of_one = dehlbazin_read_committer(record, size, known, i, answer.data(), answer.size());
        const Result<SiteCommitter> one = v.committer(i);
        check(one.number() == of_one, "both numbers of a committer");
        if (one)
            check(one.get()->number.number() == place(0) && one.get()->name.size() == place(2) &&
                      one.get()->name.data() == reinterpret_cast<const char *>(record) + place(1),
                  "a committer that both read");
    }
}

static void test_both_ways()
{
    Tally writings, readings;
    Dice dice(7);
    for (int round = 0; round < 5000; round++) {
        const Numbers numbers = some_numbers(dice);
        Buffer buffer;
        size_t size = write_both_ways(numbers, dice.once_in(4) ? dice.below(80) : buffer.size(), buffer, writings);
        if (size == 0)
            continue;
        if (dice.once_in(3))
            buffer[dice.below(size)] ^= uint8_t(1 << dice.below(8));
        else if (dice.once_in(6))
            size -= dice.below(4);
        for (uint64_t known : {1, 2, 3})
            read_both_ways(buffer.data(), size, known, readings);
    }
    writings.all_met("settings written both ways", {0, 23, 24, 33});
    readings.all_met("settings read both ways", {0, 23, 24});
}

void test_settings()
{
    test_write();
    test_committers();
    test_read();
    test_copied();
    test_spoilt();
    test_start();
    test_both_ways();
}
