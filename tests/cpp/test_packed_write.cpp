// Writing the packed table as text: what is written and in which order, each digit, each length of a buffer, and what it takes no
// part in: loose values, locks, and a transaction that is prepared.
#include "dehlbazin.h"
#include "packed_text.h"
#include "samples.h"
#include "tests.h"
#include "text_samples.h"
#include "world.h"

#include <algorithm>

using namespace texts;

static const char OLD = '\xEE'; // what stands in a buffer before a call

// The archive writes this text, into a buffer that has room for so many bytes more, which stay.
static void writes(World &world, const std::string &text, size_t more = 3, AT_CALLER)
{
    const std::string rest(more, OLD);
    world.gives(call::write_packed(std::string(text.size(), OLD) + rest), 0, {text.size()}, at);
    check(world.buffer() == text + rest, "the text is '" + world.buffer() + "' instead of '" + text + "'", at);
}

// It is refused, and every byte of the buffer stays.
static void is_too_long(World &world, size_t room, AT_CALLER)
{
    world.gives(call::write_packed(std::string(room, OLD)), 32, {}, at);
    check(world.buffer() == std::string(room, OLD), "a buffer of " + std::to_string(room) + " is changed", at);
}

static Store with_packed(const std::vector<std::pair<std::string, uint64_t>> &names)
{
    Store s;
    for (const auto &[name, packed] : names)
        s.entries.push_back({name, {}, packed, FREE});
    return s;
}

// ---- what is written

static void test_example()
{
    World world(shelves());
    writes(world, text_of_shelves(), 0);
    writes(world, text_of_shelves());
    check(world.place(DEHLBAZIN_WRITE_PACKED_LENGTH) == 180, "180 bytes");
    World empty;
    writes(empty, "", 0);
    writes(empty, "", 40);
    World loose(marked());
    writes(loose, "", 0); // names, and not one packed value
}

// A packed value is written whatever stands before it, and a loose one never is.
static void test_loose_values()
{
    for (const Value &value : {Value{}, object(5), object(9), link(0), link(1), Value{BROKEN, 0}}) {
        Store store = with_packed({{"refs/heads/a", 9}, {"refs/heads/b", 0}});
        store.entries[0].loose = value;
        store.entries[1].loose = value;
        World world(store);
        writes(world, ref(9, "refs/heads/a"));
    }
    World world(busy());
    writes(world, ref(5, "refs/heads/aisle") + ref(0x0102030405060708, "refs/tags/spring"));
}

// Each digit in each of its 16 places, and the numbers at the bounds.
static void test_numbers()
{
    std::vector<uint64_t> numbers = {1, 0x0123456789abcdef, 0xfedcba9876543210, ~uint64_t(0), ~uint64_t(0) - 1, uint64_t(1) << 63};
    for (int shift = 0; shift < 64; shift += 4)
        for (uint64_t digit = 1; digit < 16; digit++)
            numbers.push_back(digit << shift);
    for (uint64_t number : numbers) {
        World world(with_packed({{"refs/x", number}}));
        writes(world, ref(number, "refs/x"));
        world.gives(call::read_packed(ref(number, "refs/x")), 0, {1});
    }
    World largest(with_packed({{"refs/x", ~uint64_t(0)}}));
    writes(largest, "000000000000000000000000ffffffffffffffff refs/x\n");
}

// ---- the order

// In byte order. A name stands before those that it begins, and length is not looked at before that.
static const std::vector<std::string> RISING = {
    "refs/-", "refs/0", "refs/A", "refs/Z", "refs/_", "refs/a", "refs/a-", "refs/a-b", "refs/a.b", "refs/a/b", "refs/a/b/c",
    "refs/a0", "refs/aA", "refs/a_", "refs/aa", "refs/aaa", "refs/ab", "refs/b", "refs/bb/a", "refs/heads/a", "refs/heads/a/b",
    "refs/heads/aisle-1", "refs/heads/aisle-10", "refs/heads/aisle-2", "refs/headsx/a", "refs/z",
};

static std::string text_of(const std::vector<std::string> &rising)
{
    std::string text;
    for (size_t n = 0; n < rising.size(); n++)
        text += ref(n + 1, rising[n]);
    return text;
}

// Each has its place in the order as its object, so that a line tells whether the value went with the name.
static Store arrived(const std::vector<std::string> &rising, const std::vector<size_t> &order)
{
    Store s;
    for (size_t n : order)
        s.entries.push_back({rising[n], {}, n + 1, FREE});
    return s;
}

static void test_order()
{
    std::vector<size_t> order(RISING.size());
    for (size_t n = 0; n < order.size(); n++)
        order[n] = n;
    auto written = [&] {
        World world(arrived(RISING, order));
        writes(world, text_of(RISING));
    };
    written();
    std::reverse(order.begin(), order.end());
    written();
    for (size_t turn = 0; turn < order.size(); turn++) {
        std::rotate(order.begin(), order.begin() + 7, order.end());
        std::swap(order[turn], order[order.size() / 2]);
        written();
    }
}

// Four names in all 24 orders, and every choice of those that have a value.
static void test_all_orders()
{
    const std::vector<std::string> rising = {"refs/a", "refs/a-b", "refs/a/b", "refs/aa"};
    std::vector<size_t> order = {0, 1, 2, 3};
    do
        for (unsigned chosen = 0; chosen < 16; chosen++) {
            Store store = arrived(rising, order);
            std::string text;
            for (size_t n = 0; n < 4; n++)
                if (chosen >> n & 1)
                    text += ref(n + 1, rising[n]);
            for (Entry &entry : store.entries)
                if (!(chosen >> (entry.packed - 1) & 1))
                    entry.packed = 0;
            World world(store);
            writes(world, text, chosen % 2);
        }
    while (std::next_permutation(order.begin(), order.end()));
}

// Two names that differ in one place alone, wherever it is, in both orders; and one of which begins the other, at each length.
static void test_places_of_difference()
{
    const std::string name = "refs/" + std::string(59, 'm');
    for (size_t at = 5; at < 64; at++) {
        std::string less = name, more = name;
        less[at] = 'a';
        more[at] = 'z';
        const std::string shorter = name.substr(0, at);
        for (const auto &[first, second] : {std::pair(less, name), {name, more}, {less, more}, {shorter, name}}) {
            if (!is_name(first))
                continue;
            World rising(with_packed({{first, 1}, {second, 2}})), falling(with_packed({{second, 2}, {first, 1}}));
            writes(rising, ref(1, first) + ref(2, second));
            writes(falling, ref(1, first) + ref(2, second));
        }
    }
}

// ---- the buffer

// Every length from none to more than enough: refused exactly where the text does not fit.
static void test_every_length(const Store &store, const std::string &text)
{
    World world(store);
    for (size_t room = 0; room < text.size(); room++)
        is_too_long(world, room);
    for (size_t more = 0; more < 70; more++)
        writes(world, text, more);
}

static void test_lengths()
{
    test_every_length(shelves(), text_of_shelves());
    test_every_length(Store{}, "");
    test_every_length(with_packed({{"refs/x", 7}}), ref(7, "refs/x"));
    test_every_length(arrived(RISING, {9, 3, 20}), ref(4, RISING[3]) + ref(10, RISING[9]) + ref(21, RISING[20]));
}

// 256 names of 64 bytes, in several orders of arrival; and buffers about the ends of lines.
static void test_widest()
{
    const std::string text = widest_text();
    check(text.size() == 27136 && text.size() == DEHLBAZIN_PACKED_TEXT_MOST_BYTES, "the longest text");
    check(packed_text::text_of(widest()) == text, "our own writer writes another one");
    for (size_t step : {1, 2, 3, 7, 16, 255, 256}) {
        World world(widest(step));
        writes(world, text, step % 2);
    }
    Store falling = widest();
    std::reverse(falling.entries.begin(), falling.entries.end());
    World world(falling);
    writes(world, text, 65536 - text.size());
    for (size_t room : {0, 1, 105, 106, 107, 255, 256, 13568, 16384, 27029, 27030, 27031, 27134, 27135})
        is_too_long(world, room);
}

// ---- what it looks at

// Locks and rows play no part: the text is that of the same names and values without them.
static void test_prepared_and_locked()
{
    for (const Store &store :
         {prepared(), prepared_in(1), prepared_in(2), prepared_in(3), unopened(), nested(), nested_prepared(), busy()}) {
        std::string text;
        std::vector<std::pair<std::string, uint64_t>> rising;
        for (const Entry &entry : store.entries)
            if (entry.packed != 0)
                rising.push_back({entry.name, entry.packed});
        std::sort(rising.begin(), rising.end());
        for (const auto &[name, packed] : rising)
            text += ref(packed, name);
        World world(store);
        writes(world, text);
        if (!text.empty())
            is_too_long(world, text.size() - 1);
        for (size_t n = 0; n < store.entries.size(); n++)
            world.agrees(call::place_lock_on_name(n));
        world.agrees(call::place_lock_on_packed());
        writes(world, text);
        world.agrees(call::rollback());
        writes(world, text);
    }
}

// The text follows what calls do: loads, and a commit.
static void test_after_calls()
{
    World world(plain(3));
    writes(world, "");
    world.gives(call::load_packed(2, OBJECT, 5), 0);
    world.gives(call::load_packed(0, OBJECT, 6), 0);
    writes(world, ref(6, "refs/heads/0") + ref(5, "refs/heads/2"));
    world.gives(call::prepare(write_list({updating(1, object(7)), deleting(2)}), 3), 0, {2});
    writes(world, ref(6, "refs/heads/0") + ref(5, "refs/heads/2")); // commit is not made yet
    world.agrees(call::commit(1, ~uint64_t(0)));
    writes(world, ref(6, "refs/heads/0") + ref(7, "refs/heads/1"));
    world.gives(call::load_packed(0, NONE, 0), 0);
    writes(world, ref(7, "refs/heads/1"));
}

void test_packed_write()
{
    test_example();
    test_loose_values();
    test_numbers();
    test_order();
    test_all_orders();
    test_places_of_difference();
    test_lengths();
    test_widest();
    test_prepared_and_locked();
    test_after_calls();
}
