// Closing a receiver, by hand: which refusal comes first, what is left of the receiver and of the region after each, and receivers
// that are used again.
#include "dock.h"
#include "lists.h"
#include "samples.h"
#include "tests.h"
#include "world.h"

using namespace receiver;

static const size_t LONG = 2 * REGION + 65536; // more bytes than any region has here
static const std::vector<size_t> OTHER_ANSWERS = {0, 1, 127, 129, 256, 256 + 128, 65536 + 128};

static std::string good_list() { return write_list({through(updating(0, object(7)))}); }

// Closing gives this, and a fresh receiver follows.
static void closes(Dock &dock, const Bytes &region, std::string_view held, uint64_t mode, uint32_t number,
                   const std::vector<uint64_t> &places = {}, AT_CALLER)
{
    Bytes receiver = holding(held);
    const uint32_t given = dock.closes(region, receiver, mode, ANSWER, at);
    check(given == number, "number " + std::to_string(given) + " instead of the stated " + std::to_string(number), at);
    check(dock.answer() == bytes_of(::answer(number, places)), "the answer is not the stated one", at);
    check(receiver == Bytes(870, 0), "no fresh receiver follows", at);
    check(number == 0 || dock.region() == region, "a refused closing changes the region", at);
}

// ---- prepare's refusals, in prepare's order

// A receiver that holds nothing is closed like any other: no bytes are no list.
static void test_empty()
{
    Dock dock;
    for (uint64_t mode : {0, 1, 2, 3, 4}) {
        closes(dock, encode(marked()), "", mode, 2);
        closes(dock, encode(Store{}), "", mode, 2);
        closes(dock, encode(prepared()), "", mode, 15);
        closes(dock, Bytes(REGION, 0), "", mode, 1);
    }
}

static void test_modes()
{
    Dock dock;
    const uint64_t past_32 = uint64_t(1) << 32;
    for (uint64_t mode : {1, 2, 3})
        closes(dock, encode(marked()), good_list(), mode, 0, {2});
    for (uint64_t mode : {uint64_t(0), uint64_t(4), uint64_t(255), uint64_t(257), uint64_t(65537), past_32, past_32 + 1,
                          past_32 + 3, (uint64_t(1) << 63) + 1, ~uint64_t(0)})
        closes(dock, encode(marked()), good_list(), mode, 2);
}

// Every number of bytes too few, and many too many: 15 comes before it, 3 after it.
static void test_order()
{
    Dock dock;
    const std::string list = write_list({updating(1, object(7)), updating(300, object(7))});
    const Bytes free = encode(marked()), busy = encode(prepared());
    closes(dock, free, list, 1, 3, {300});
    closes(dock, busy, list, 1, 15);
    closes(dock, busy, list, 9, 15);
    closes(dock, free, list, 9, 2);
    for (size_t size = 0; size < list.size(); size++) {
        closes(dock, free, list.substr(0, size), 1, 2);
        closes(dock, busy, list.substr(0, size), 1, 15);
    }
    for (size_t more : {1, 2, 26, 27, 28, 256, 512, 868 - 58}) {
        closes(dock, free, list + std::string(more, '\0'), 1, 2);
        closes(dock, free, list + std::string(more, '\1'), 1, 2);
        closes(dock, busy, list + std::string(more, '\0'), 1, 15);
    }
}

// ---- regions that are not good

static std::vector<Bytes> bad_regions()
{
    std::vector<Bytes> bad = {Bytes(REGION, 0), Bytes(REGION, 0xFF)};
    for (const auto &[at, byte] : {std::pair<size_t, uint8_t>(0, 2), {AT_MODE, 4}, {NAMES.slot(2), 1}, {REGION - 1, 1}}) {
        bad.push_back(encode(marked()));
        bad.back()[at] = byte;
    }
    for (size_t size : {size_t(0), size_t(1), size_t(870), REGION - 1, REGION + 1, 2 * REGION, REGION + 65536}) {
        bad.push_back(encode(marked()));
        bad.back().resize(size);
    }
    return bad;
}

// 1, with a fresh receiver: the region is refused, and the receiver is not.
static void test_bad_regions()
{
    Dock dock(LONG);
    for (const Bytes &region : bad_regions())
        for (const std::string &held : {std::string(), good_list(), longest_list(), std::string("abc")})
            for (uint64_t mode : {0, 1, 4})
                closes(dock, region, held, mode, 1);
}

// Neither is good: 1, and both stay.
static void test_both_bad()
{
    Dock dock(LONG);
    Bytes longer = holding(good_list()), counted = longer;
    longer.push_back(0);
    counted[0] = 3;
    counted[1] = 0x65;
    for (const Bytes &region : bad_regions())
        for (const Bytes &bytes : {longer, counted, Bytes{}, Bytes(870, 0xEE)}) {
            Bytes receiver = bytes;
            check(dock.closes(region, receiver, 1) == 1, "neither is good");
            check(receiver == bytes && dock.region() == region, "a byte of one of them is changed");
            check(dock.answer() == Bytes(ANSWER, 0), "the answer is not all 0");
        }
}

// ---- answer records of another size

// Nothing is written anywhere, in the receiver neither, whatever it holds and whatever region is lent.
static void test_answers()
{
    Dock dock(LONG);
    const Bytes empty = fresh(), list = holding(good_list()), malformed = holding("abc"), damaged(870, 0xEE), longer(871, 0);
    for (const Bytes &region : {encode(marked()), encode(prepared()), Bytes(REGION, 0), Bytes(5, 0)})
        for (const Bytes &bytes : {empty, list, malformed, damaged, longer})
            for (size_t answer_len : OTHER_ANSWERS) {
                Bytes receiver = bytes;
                check(dock.closes(region, receiver, 1, answer_len) == 1, "closing");
                check(dock.takes(receiver, "abc", answer_len) == 1, "a fragment");
                check(dock.takes(receiver, std::string(900, 'x'), answer_len) == 1, "a fragment that is too long");
                check(dock.freshens(receiver, answer_len) == 1, "a fresh receiver");
                check(receiver == bytes && dock.region() == region, "a byte is written");
                check(dock.answer() == Bytes(answer_len, 0xEE), "a byte of the answer is written");
            }
}

// ---- receivers that are used again

// What a fragment does to a receiver that was closed: the old list is gone from it.
static void test_next_list()
{
    Dock dock;
    World world(marked());
    Bytes receiver = fresh();
    const std::string first = good_list(), second = write_list({updating(1, object(9))});
    auto arrives = [&](const std::string &list) {
        for (size_t at = 0; at < list.size(); at += 20)
            check(dock.takes(receiver, list.substr(at, 20)) == 0, "a fragment is not taken");
    };
    arrives(first);
    check(world.closes(receiver, 1) == answer(0, {2}), "the first list is prepared");
    arrives(second);
    check(world.closes(receiver, 1) == answer(15), "a transaction is prepared");
    check(receiver == fresh(), "the second list is gone");
    check(world.closes(receiver, 1) == answer(15), "and with no list too");
    arrives(second); // while the first is still prepared: a fragment looks at no region
    world.gives(call::commit(1, ~uint64_t(0)), 0, {3});
    check(world.closes(receiver, 2) == answer(0, {1}), "the second list is prepared");
    world.gives(call::commit(1, ~uint64_t(0)), 0, {3});
    world.gives(call::read_name(1), 0, {OBJECT, 9, PLACE_LOOSE});
    arrives(first.substr(0, 30));
    check(world.closes(receiver, 1) == answer(2), "a byte is missing");
    arrives(first.substr(30)); // is not put behind the others: they are gone
    check(world.closes(receiver, 1) == answer(2), "and is no list alone");
}

// One receiver is closed on two regions, and two receivers on one.
static void test_two_regions()
{
    World first(marked()), second(chain(4, object(5)));
    Bytes one = holding(good_list()), other = one;
    check(first.closes(one, 1) == answer(0, {2}), "the first region");
    one = other;
    check(second.closes(one, 3) == answer(0, {5}), "the second region");
    check(first.closes(other, 1) == answer(15), "the first region again");
    check(one == fresh() && other == fresh(), "both are fresh");
}

void test_receiver_closed()
{
    test_empty();
    test_modes();
    test_order();
    test_bad_regions();
    test_both_bad();
    test_answers();
    test_next_list();
    test_two_regions();
}
