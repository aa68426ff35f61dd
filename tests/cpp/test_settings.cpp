// The four calls of the settings record, by hand: the examples of docs/SETTINGS.md, each bound at its edge and past it, each
// refusal and their order, and what is lent.
#include "dehlbazin.h"
#include "desk.h"
#include "samples.h"
#include "settings_samples.h"
#include "tests.h"
#include "world.h"

#include <algorithm>

using namespace settings;
using Places = std::vector<uint64_t>;

static const uint8_t OLD = 0xEE;
static const size_t LONG = 5000; // more bytes than any record has here, 16 committers with names of 255 bytes too
static const uint64_t UNKNOWN[] = {0, 3, 256 + 1, 65536 + 1, 65536 + 2, (uint64_t(1) << 32) + 1, (uint64_t(1) << 32) + 2,
                                   (uint64_t(1) << 63) + 1, ~uint64_t(0)};

// The archive gives this number and these places, and so do our own reader and writer, which a desk compares with it.
static void gave(Desk &desk, uint32_t given, uint32_t number, const Places &places, const At &at)
{
    check(given == number, "number " + std::to_string(given) + " instead of the stated " + std::to_string(number), at);
    check(desk.answer() == bytes_of(::answer(number, places)), "the answer is not the stated one", at);
}

static void reads(const Bytes &record, uint64_t known, uint32_t number, const Places &places = {}, AT_CALLER)
{
    Desk desk(LONG);
    gave(desk, desk.reads(record, known, ANSWER, at), number, places, at);
}

static void reads_committer(const Bytes &record, uint64_t known, uint64_t place, uint32_t number, const Places &places = {},
                            AT_CALLER)
{
    Desk desk(LONG);
    gave(desk, desk.reads_committer(record, known, place, ANSWER, at), number, places, at);
}

// Into a buffer of so many bytes. Where it is done, the record stands there, and all bytes past it are as they were.
static void writes(const Order &order, size_t room, uint32_t number, const Bytes &record = {}, AT_CALLER)
{
    Desk desk(LONG);
    const uint32_t given = desk.writes(order, Bytes(room, OLD), ANSWER, at);
    gave(desk, given, number, number == 0 ? Places{record.size()} : Places{}, at);
    Bytes after = record;
    after.resize(room, OLD);
    check(desk.buffer() == after, "the buffer is not the stated one", at);
}

static void writes(uint64_t version, const Settings &settings, uint32_t number, AT_CALLER)
{
    const Bytes record = number == 0 ? bytes_of(version, settings) : Bytes{};
    writes(order_of(version, settings), MOST_BYTES + 21, number, record, at);
}

// ---- the examples

static void test_examples()
{
    const Bytes one = example(VERSION_1), two = example(VERSION_2);
    check(one.size() == 38 && two.size() == 43, "the examples have 38 and 43 bytes");
    reads(one, 1, 0, {1, 1, 0, 2});
    reads(one, 2, 0, {1, 1, 0, 2});
    reads(two, 1, 24);
    reads(two, 2, 0, {1, 1, 7, 2});
    for (const auto &[record, known] : {std::pair(one, 1), std::pair(one, 2), std::pair(two, 2)}) {
        reads_committer(record, known, 0, 0, {12, 17, 7});
        reads_committer(record, known, 1, 0, {40, 27, 11});
        check(Bytes(record.begin() + 17, record.begin() + 24) == bytes("planner"), "the name 'planner'");
        check(Bytes(record.begin() + 27, record.begin() + 38) == bytes("night shift"), "the name 'night shift'");
        reads_committer(record, known, 2, 22);
    }
    reads_committer(two, 1, 0, 24);
    for (uint64_t version : {VERSION_1, VERSION_2}) {
        const Bytes record = example(version);
        writes(order_of(version, example_settings(version)), record.size(), 0, record);
        check(bytes_of(version, example_settings(version)) == record, "our own writer writes the example");
    }
}

// Every length of the buffer, from none to a few bytes more than the record has.
static void test_buffers()
{
    for (uint64_t version : {VERSION_1, VERSION_2})
        for (const Settings &settings : {example_settings(version), none()}) {
            const Order order = order_of(version, settings);
            const Bytes record = bytes_of(version, settings);
            for (size_t room = 0; room < record.size(); room++)
                writes(order, room, 33);
            for (size_t room : {record.size(), record.size() + 1, record.size() + 2, record.size() + 300})
                writes(order, room, 0, record);
        }
    writes(order_of(VERSION_2, longest()), 578, 33);
    writes(order_of(VERSION_2, longest()), 579, 0, bytes_of(VERSION_2, longest()));
    Settings without_site = longest();
    without_site.site = 0;
    writes(order_of(VERSION_1, without_site), 573, 33);
    writes(order_of(VERSION_1, without_site), 574, 0, bytes_of(VERSION_1, without_site));
}

// ---- bounds

// Settings that are written and read again where they are in bounds, and are refused both ways where they are not.
static void bounds(bool good, const Settings &settings, AT_CALLER)
{
    for (uint64_t version : {VERSION_1, VERSION_2}) {
        Settings s = settings;
        s.site = version == VERSION_1 ? 0 : s.site;
        writes(version, s, good ? 0 : 23, at);
        const Bytes record = bytes_of(version, s);
        for (uint64_t known = version; known <= VERSION_2; known++)
            reads(record, known, good ? 0 : 23, good ? Places{s.log, s.mode, s.site, s.committers.size()} : Places{}, at);
        size_t name = 14;
        for (size_t i = 0; i < s.committers.size(); i++) {
            const Places places = {s.committers[i].number, name + 3, s.committers[i].name.size()};
            reads_committer(record, VERSION_2, i, good ? 0 : 23, good ? places : Places{}, at);
            name += 3 + s.committers[i].name.size();
        }
        reads_committer(record, VERSION_2, s.committers.size(), good ? 22 : 23, {}, at);
    }
}

static void test_numbers_in_bounds()
{
    for (uint64_t log : {0, 1, 2, 3, 255})
        for (uint64_t mode : {0, 1, 2, 3, 4, 255})
            bounds(log <= 2 && mode >= 1 && mode <= 3, {log, mode, 9, {}});
    for (uint64_t site : {0, 1, 255, 256, 257, 65534, 65535})
        bounds(true, {2, 3, site, {{1, {0}}}});
    writes(VERSION_2, {0, 1, 65536, {}}, 23);
}

static void test_committers()
{
    for (size_t count : {0, 1, 2, 15, 16, 17, 18})
        for (size_t name : {1, 2, 31, 32})
            bounds(count <= MOST_COMMITTERS, committers(count, name));
    for (size_t count : {1, 2, 16})
        for (size_t name : {0, 33, 34, 64, 255})
            bounds(false, committers(count, name));
    Settings s = committers(3, 4);
    for (const auto &[first, second, third] :
         {std::array<uint64_t, 3>{0, 1, 2}, {1, 1, 2}, {1, 2, 2}, {2, 1, 3}, {1, 3, 2}, {3, 2, 1}, {1, 0, 2}, {65535, 65535, 65535},
          {256, 255, 257}, {1, 65535, 2}, {0, 0, 0}}) {
        s.committers[0].number = first;
        s.committers[1].number = second;
        s.committers[2].number = third;
        bounds(false, s);
    }
    bounds(true, {1, 1, 0, {{255, {1}}, {256, {2}}, {65534, {3}}, {65535, {4}}}});
    bounds(true, {1, 1, 0, {{7, bytes("same")}, {8, bytes("same")}}}); // a name may stand twice
}

// A name may be any bytes, those that look like a record's frame among them.
static void test_names_of_any_bytes()
{
    for (unsigned byte = 0; byte < 256; byte++) {
        bounds(true, {1, 2, 3, {{5, {uint8_t(byte)}}}});
        bounds(true, {1, 2, 3, {{5, Bytes(MOST_NAME, uint8_t(byte))}, {6, {uint8_t(byte), uint8_t(255 - byte)}}}});
    }
    bounds(true, {1, 2, 3, {{4, {0, 3, 4, 0, 7}}, {5, {0, 2, 1, 1, 0, 2, 2, 1}}, {6, {0, 9, 1}}}});
}

// ---- numbers with more bits than they may have

static void test_high_bits()
{
    const Bytes record = example(VERSION_2);
    for (uint64_t known : UNKNOWN) {
        reads(record, known, 24);
        reads(example(VERSION_1), known, 24);
        reads({}, known, 24);
        reads_committer(record, known, 0, 24);
        Order order = example_order();
        order.version = known;
        writes(order, 100, 24);
    }
    for (uint64_t place : {uint64_t(2), uint64_t(3), uint64_t(15), uint64_t(16), uint64_t(255)})
        reads_committer(record, 2, place, 22);
    for (uint64_t k : {0, 1, 2})
        for (uint64_t place : too_large(k))
            reads_committer(record, 2, place, 22);
    for (uint64_t k : {0, 1, 7, 12})
        for (uint64_t number : too_large(k)) {
            auto with = [&](uint64_t Order::*field) {
                Order order = example_order();
                order.*field = number;
                return order;
            };
            writes(with(&Order::log), 100, 23);
            writes(with(&Order::mode), 100, 23);
            if (number > LAST_NUMBER)
                writes(with(&Order::site), 100, 23);
        }
}

static void test_high_bits_in_lists()
{
    for (size_t i : {0, 1})
        for (uint64_t k : {0, 1, 7, 11, 12, 40})
            for (uint64_t number : too_large(k)) {
                Order order = example_order();
                if (number > LAST_NUMBER) {
                    order.numbers[i] = number;
                    writes(order, 100, 23);
                }
                order = example_order();
                order.lengths[i] = number;
                writes(order, 100, 23);
            }
}

// ---- lists that do not fit each other

static void test_unequal_lists()
{
    const Order whole = example_order();
    for (size_t numbers : {0, 1, 2, 3})
        for (size_t lengths : {0, 1, 2, 3})
            for (size_t names : {0, 1, 7, 17, 18, 19, 26, 36}) {
                Order order = whole;
                order.numbers.resize(numbers, 50);
                order.lengths.resize(lengths, 8);
                order.names.resize(names, 'x');
                const size_t sums[] = {0, 7, 18, 26};
                const bool fit = numbers == lengths && names == sums[lengths];
                Bytes buffer(200);
                const bool done = settings::write_settings(buffer, order).number == 0;
                check(done == fit, "our own writer takes lists that do not fit");
                writes(order, 200, fit ? 0 : 23, fit ? Bytes(buffer.begin(), buffer.begin() + 19 + 3 * long(numbers) + long(names))
                                                     : Bytes{});
            }
}

// Lengths of which the sum, modulo 2^64 or 2^32 or 2^16, is the number of bytes that there are.
static void test_sums_that_wrap()
{
    const uint64_t top = uint64_t(1) << 63;
    auto refuses = [](const std::vector<uint64_t> &lengths, size_t names) {
        Order order = order_of(VERSION_2, committers(lengths.size(), 1));
        order.lengths = lengths;
        order.names = Bytes(names, 'x');
        writes(order, 700, 23);
    };
    refuses({top, top}, 0);
    refuses({top, top + 5}, 5);
    refuses({~uint64_t(0), 6}, 5);
    refuses({6, ~uint64_t(0)}, 5);
    refuses({~uint64_t(0), 2, 30}, 31);
    refuses({30, 2, ~uint64_t(0) - 1}, 30);
    refuses({uint64_t(1) << 32, 5}, 5);
    refuses({(uint64_t(1) << 32) + 5}, 5);
    refuses({65536 + 5}, 5);
    refuses({256 + 5}, 5);
    refuses({~uint64_t(0), ~uint64_t(0), 3}, 1);
    refuses(std::vector<uint64_t>(16, uint64_t(1) << 60), 0);
    refuses(std::vector<uint64_t>(16, (uint64_t(1) << 60) + 2), 32);
    refuses({33, 31}, 64); // a sum that fits, of lengths that do not
    refuses({0, 2}, 2);
    refuses({64, 0}, 64);
}

// Lists and bytes whose lengths a shorter number would take for good ones.
static void test_long_lists()
{
    Desk desk(8 * 65600);
    for (size_t more : {size_t(256), size_t(65536)}) {
        Order numbers = example_order(), lengths = numbers, both = numbers, names = numbers;
        numbers.numbers.resize(2 + more, 41);
        lengths.lengths.resize(2 + more, 0);
        both.numbers = numbers.numbers;
        both.lengths = lengths.lengths;
        names.names.resize(18 + more);
        for (const Order &order : {numbers, lengths, both, names})
            check(desk.writes(order, Bytes(100, OLD)) == 23, "lists that are longer by " + std::to_string(more));
        for (uint64_t version : {VERSION_1, VERSION_2}) {
            Bytes record = example(version);
            record.resize(record.size() + more);
            check(desk.reads(record, 2) == 23, "a record that is longer by " + std::to_string(more));
            check(desk.reads_committer(record, 2, 0) == 23, "a record that is longer by " + std::to_string(more));
        }
        check(desk.writes(example_order(), Bytes(1 + more, OLD)) == 0, "a buffer of one byte and " + std::to_string(more));
        check(desk.writes(example_order(), Bytes(more, OLD)) == 0, "a buffer of " + std::to_string(more));
    }
}

// ---- refusals in their order

static void test_order_of_reading()
{
    Bytes malformed = example(VERSION_2), unknown = malformed, both = malformed;
    malformed[3] = both[3] = 9;
    unknown[0] = both[0] = 3;
    Desk desk;
    for (const Bytes &record : {malformed, unknown, both, Bytes{}, example(VERSION_2)})
        for (uint64_t known : {0, 1, 2, 3})
            for (size_t answer_len : {0, 1, 127, 129, 256}) {
                check(desk.reads(record, known, answer_len) == 1, "1 comes first");
                check(desk.reads_committer(record, known, 9, answer_len) == 1, "1 comes first");
            }
    for (const Bytes &record : {unknown, both}) {
        reads(record, 2, 24);
        reads_committer(record, 2, 9, 24);
    }
    for (uint64_t known : {0, 3})
        for (const Bytes &record : {malformed, Bytes{}, Bytes{1}}) {
            reads(record, known, 24);
            reads_committer(record, known, 9, 24);
        }
    reads(malformed, 1, 24);
    reads(malformed, 2, 23);
    reads_committer(malformed, 2, 9, 23);
    for (uint64_t known : {1, 2}) {
        reads({}, known, 23);
        reads_committer({}, known, 0, 23);
        reads({1}, known, 23);
        reads({0}, known, 24);
        reads({3}, known, 24);
        reads({255}, known, 24);
    }
    reads({2}, 1, 24);
    reads({2}, 2, 23);
}

static void test_order_of_writing()
{
    Order order = example_order();
    Desk desk;
    for (uint64_t version : {1, 2, 3})
        for (uint64_t log : {1, 3})
            for (size_t room : {0, 42, 43, 50})
                for (size_t answer_len : {0, 1, 127, 129, 256}) {
                    order.version = version;
                    order.log = log;
                    check(desk.writes(order, Bytes(room, OLD), answer_len) == 1, "1 comes first");
                }
    order.version = 3;
    writes(order, 0, 24); // and a log setting of 3, and no room
    order.version = 2;
    writes(order, 0, 23);
    order.log = 1;
    writes(order, 0, 33);
    order.version = 1;
    writes(order, 0, 23); // a site in version 1
    writes(order, 100, 23);
    order.site = 0;
    writes(order, 37, 33);
    writes(order, 38, 0, example(VERSION_1));
}

// ---- start with a record

static void test_starts()
{
    for (const Store &store : {busy(), prepared(), Store{}})
        for (uint64_t log : {0, 1, 2})
            for (uint64_t version : {VERSION_1, VERSION_2}) {
                Settings settings = example_settings(version);
                settings.log = log;
                World world(store), plain(store);
                check(world.starts(bytes_of(version, settings)).number == 0, "our own store starts");
                plain.gives(call::start(log), 0);
                check(world.number() == 0 && world.region().holds(plain.region().data()), "the region of a plain start");
                world.gives(call::name_bytes(0), 3, {0});
                world.gives(call::read_row(0), 22);
            }
    Bytes malformed = example(VERSION_2), unknown = malformed, both = malformed;
    malformed[6] = both[6] = 3;
    unknown[0] = both[0] = 3;
    for (const Store &store : {busy(), prepared(), Store{}})
        for (const auto &[record, number] : {std::pair(malformed, 23), {unknown, 24}, {both, 24}, {Bytes{}, 23}, {Bytes{0}, 24}}) {
            World world(store);
            world.starts(record);
            check(world.number() == uint32_t(number), "start with a bad record gives " + std::to_string(world.number()));
            check(world.region().holds(encode(store)), "start with a bad record changes the region");
        }
}

// ---- what is lent

// No bytes at a pointer that is not null, and memory that can only be read.
static void test_lent()
{
    Lent none(0), answer(ANSWER, OLD), buffer(64, OLD);
    const uint64_t *no_numbers = reinterpret_cast<const uint64_t *>(none.data());
    check(dehlbazin_read_settings(none.data(), 0, 2, answer.data(), ANSWER) == 23, "no bytes at a pointer");
    check(dehlbazin_read_committer(none.data(), 0, 2, 0, answer.data(), ANSWER) == 23, "no bytes at a pointer");
    check(dehlbazin_write_settings(none.data(), 0, 2, 1, 1, 7, no_numbers, 0, no_numbers, 0, none.data(), 0, answer.data(),
                                   ANSWER) == 33,
          "no buffer at a pointer");
    check(dehlbazin_write_settings(buffer.data(), 64, 2, 1, 1, 7, no_numbers, 0, no_numbers, 0, none.data(), 0, answer.data(),
                                   ANSWER) == 0,
          "no committers at a pointer");
    check(dehlbazin_place(answer.data(), 0) == 19, "the length of a record without committers");

    Lent record(example(VERSION_2)), numbers(16), lengths(16), names(bytes("plannernight shift"));
    const uint64_t all[] = {12, 40, 7, 11};
    std::copy_n(reinterpret_cast<const uint8_t *>(all), 16, numbers.data());
    std::copy_n(reinterpret_cast<const uint8_t *>(all + 2), 16, lengths.data());
    for (Lent *lent : {&record, &numbers, &lengths, &names})
        lent->only_read();
    Lent region(REGION, OLD);
    const auto list = [](const Lent &lent) { return reinterpret_cast<const uint64_t *>(lent.data()); };
    check(dehlbazin_read_settings(record.data(), record.size(), 2, answer.data(), ANSWER) == 0, "a record that is only read");
    check(dehlbazin_read_committer(record.data(), record.size(), 2, 1, answer.data(), ANSWER) == 0, "a record that is only read");
    check(dehlbazin_start_with_settings(region.data(), REGION, record.data(), record.size(), answer.data(), ANSWER) == 0,
          "a start by a record that is only read");
    check(dehlbazin_write_settings(buffer.data(), 64, 2, 1, 1, 7, list(numbers), 2, list(lengths), 2, names.data(), 18,
                                   answer.data(), ANSWER) == 0,
          "lists that are only read");
    check(std::equal(record.data(), record.data() + record.size(), buffer.data()), "the example from lists that are only read");
}

// Record, buffer, names and answer at each of 16 alignments.
static void test_alignment()
{
    const Bytes record = example(VERSION_2);
    const Order order = example_order();
    for (size_t shift = 0; shift < 16; shift++) {
        const std::string what = "at alignment " + std::to_string(shift);
        Bytes room(512, 0x77);
        uint8_t *buffer = room.data() + shift, *answer = buffer + 43 + 3 * shift % 16, *names = answer + ANSWER + 5 * shift % 16;
        std::copy(order.names.begin(), order.names.end(), names);
        const Bytes before = room;
        check(dehlbazin_write_settings(buffer, 43, 2, 1, 1, 7, order.numbers.data(), 2, order.lengths.data(), 2, names, 18, answer,
                                       ANSWER) == 0,
              what);
        check(std::equal(record.begin(), record.end(), buffer), what);
        check(dehlbazin_read_settings(buffer, 43, 2, answer, ANSWER) == 0 && dehlbazin_place(answer, 2) == 7, what);
        check(dehlbazin_read_committer(buffer, 43, 2, 1, answer, ANSWER) == 0 && dehlbazin_place(answer, 1) == 27, what);
        std::copy_n(before.data() + shift, 43, buffer);
        std::copy_n(before.data() + (answer - room.data()), ANSWER, answer);
        check(room == before, what + ": bytes beside the buffer and the answer");
    }
}

void test_settings()
{
    test_examples();
    test_buffers();
    test_numbers_in_bounds();
    test_committers();
    test_names_of_any_bytes();
    test_high_bits();
    test_high_bits_in_lists();
    test_unequal_lists();
    test_sums_that_wrap();
    test_long_lists();
    test_order_of_reading();
    test_order_of_writing();
    test_starts();
    test_lent();
    test_alignment();
}
