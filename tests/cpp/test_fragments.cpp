// Edit lists cut into fragments: at every place, into single bytes, and by chance. Closing gives what prepare gives to the whole:
// the number, all 128 bytes of the answer and every byte of the region; and it leaves a fresh receiver.
#include "dice.h"
#include "dock.h"
#include "lists.h"
#include "tally.h"
#include "tests.h"
#include "world.h"

#include <algorithm>

using Fragments = std::vector<std::string>;

// What prepare does with a whole list.
struct Whole {
    Bytes region, answer, after;
    uint32_t number;
};

// By the archive's own prepare. A world compares it with our own.
static Whole prepare_whole(const Listed &listed)
{
    World world(listed.store);
    const Bytes region = encode(listed.store);
    const std::vector<uint64_t> places(listed.answer.places.begin(), listed.answer.places.end());
    world.gives(call::prepare(listed.list, listed.mode), listed.answer.number, places);
    Bytes answer;
    for (size_t i = 0; i < 16; i++)
        for (int shift = 56; shift >= 0; shift -= 8)
            answer.push_back(uint8_t(world.place(i) >> shift));
    return {region, answer, Bytes(world.region().data(), world.region().data() + REGION), world.number()};
}

// Sends the fragments to a receiver that was made fresh, closes it, and compares. A dock compares all with our own prepare too.
static void send(Dock &dock, const Listed &listed, const Whole &whole, const Fragments &fragments, AT_CALLER)
{
    Bytes receiver(receiver::SIZE, 0xEE);
    check(dock.freshens(receiver, ANSWER, at) == 0, "the receiver is not made fresh", at);
    for (const std::string &fragment : fragments)
        check(dock.takes(receiver, fragment, ANSWER, at) == 0, "a fragment is not taken", at);
    check(receiver == receiver::holding(listed.list), "the receiver does not hold the list", at);
    const uint32_t number = dock.closes(whole.region, receiver, listed.mode, ANSWER, at);
    check(number == whole.number, "closing gives " + std::to_string(number) + ", prepare " + std::to_string(whole.number), at);
    check(dock.answer() == whole.answer, "closing answers something else than prepare", at);
    check(dock.region() == whole.after, "closing leaves another region than prepare", at);
    check(receiver == receiver::fresh(), "no fresh receiver follows", at);
}

static void send_in_two(Dock &dock, const Listed &listed, const Whole &whole)
{
    for (size_t at = 0; at <= listed.list.size(); at++)
        send(dock, listed, whole, {listed.list.substr(0, at), listed.list.substr(at)});
}

static Fragments pieces_of(const std::string &list, size_t size)
{
    Fragments pieces;
    for (size_t at = 0; at < list.size(); at += size)
        pieces.push_back(list.substr(at, size));
    return pieces;
}

// Cuts anywhere, many or few, and some of them at one place, so that fragments of no bytes come between.
static Fragments cut_by_chance(Dice &dice, const std::string &list)
{
    const size_t counts[] = {1, 2, 3, 5, 9, 20, 60};
    std::vector<size_t> cuts = {0};
    for (size_t more = dice.one_of(counts); more > 0; more--)
        cuts.push_back(dice.once_in(4) ? cuts.back() : dice.below(list.size() + 1));
    cuts.push_back(list.size());
    std::sort(cuts.begin(), cuts.end());
    Fragments fragments;
    for (size_t i = 1; i < cuts.size(); i++)
        fragments.push_back(list.substr(cuts[i - 1], cuts[i] - cuts[i - 1]));
    return fragments;
}

static void test_lists()
{
    Tally numbers;
    Dock dock;
    for (const Listed &listed : all_listed()) {
        about(listed.what);
        const Whole whole = prepare_whole(listed);
        numbers.add(whole.number);
        send_in_two(dock, listed, whole);
        for (size_t size : {1, 2, 27, 512, 868})
            send(dock, listed, whole, pieces_of(listed.list, size));
        Dice dice(listed.list.size());
        for (int time = 0; time < 100; time++)
            send(dock, listed, whole, cut_by_chance(dice, listed.list));
    }
    about("");
    numbers.all_met("prepare on the lists that are cut", {0, 2, 3, 4, 6, 7, 8, 9, 10, 11, 12, 13, 14, 15, 25});
}

// A list of 33 edits has 895 bytes. The fragment that would bring it past 868 is refused, and what is held then is malformed.
static void test_too_long()
{
    std::string list = longest_list() + std::string(27, '\1');
    list[3] = 33;
    list[1] = char((list.size() - 3) >> 8);
    list[2] = char(list.size() - 3);
    Dock dock;
    for (size_t size : {1, 27, 300, 512}) {
        Bytes receiver = receiver::fresh();
        size_t held = 0;
        for (const std::string &piece : pieces_of(list, size)) {
            const bool fits = held + piece.size() <= 868;
            check(dock.takes(receiver, piece) == (fits ? 0 : 26), "pieces of " + std::to_string(size));
            held += fits ? piece.size() : 0;
        }
        check(dock.closes(encode(Store{}), receiver, 1) == 2, "what was taken of it is malformed");
        check(receiver == receiver::fresh(), "no fresh receiver follows");
    }
}

void test_fragments()
{
    test_lists();
    test_too_long();
}
