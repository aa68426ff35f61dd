// Random calls, each made through dehlbazin.hpp and through dehlbazin.h, on two regions and two receivers that stay the same byte
// for byte.
#include "check.h"
#include "dice.h"
#include "parts.h"
#include "step.h"
#include "tally.h"

#include <algorithm>
#include <cstdio>

using dehlbazin::ReceiverBytes;
using dehlbazin::Region;

// What is known of the store, to throw calls that do something: how many names there are, and whether something is prepared. And of
// the receiver: the list that is on its way to it, and how much of that was taken.
struct Known {
    uint64_t names = 0;
    bool prepared = false;
    std::string list{};
    size_t taken = 0;
};

// Mostly below a count; sometimes it, or one that would be below it if it were cut down.
static uint64_t number_near(Dice &dice, uint64_t count)
{
    const uint64_t below = count > 0 ? dice.below(count) : 0;
    switch (dice.below(30)) {
    case 0:
        return count;
    case 1:
        return below + (uint64_t(1) << dice.one_of(std::array<unsigned, 4>{8, 16, 32, 63}));
    default:
        return below;
    }
}

// Few objects, so that they meet; and the largest.
static uint64_t some_object(Dice &dice) { return dice.once_in(30) ? ~uint64_t(0) : dice.once_in(60) ? 0 : 1 + dice.below(4); }

static std::string some_name(Dice &dice)
{
    static const char *const good[] = {"HEAD",         "refs/heads/a", "refs/heads/b",     "refs/heads/c",
                                       "refs/heads/d", "refs/tags/a",  "ORIG_HEAD",        "refs/bisect/x",
                                       "refs/notes/n", "refs/x",       "refs/remotes/o/a", "refs/heads/a/e",
                                       "refs/x/y",     "refs/x/y/z"};
    static const char *const bad[] = {"", "head", "refs/", "refs/a..b", "refs/a.lock"};
    return dice.once_in(12) ? dice.one_of(bad) : dice.one_of(good);
}

static void some_target(Dice &dice, const Known &known, uint64_t &kind, uint64_t &number)
{
    kind = dice.once_in(3) ? DEHLBAZIN_KIND_LINK : DEHLBAZIN_KIND_OBJECT;
    number = kind == DEHLBAZIN_KIND_LINK ? number_near(dice, known.names) : some_object(dice);
}

static Fields some_edit(Dice &dice, const Known &known)
{
    Fields edit;
    edit.update = !dice.once_in(3);
    edit.deref = dice.once_in(2);
    edit.log_only = dice.once_in(6);
    edit.expected = dice.once_in(2) ? DEHLBAZIN_EXPECTED_ANY : dice.below(5);
    if (edit.expected >= DEHLBAZIN_EXPECTED_MUST_EXIST_AND_MATCH)
        some_target(dice, known, edit.expected_kind, edit.expected_number);
    edit.name = number_near(dice, known.names) & 0xffff;
    if (edit.update) {
        some_target(dice, known, edit.next_kind, edit.next_number);
        edit.force = dice.once_in(4);
        edit.message = dice.below(65536);
    }
    return edit;
}

static Step some_prepare(Dice &dice, const Known &known)
{
    Step step{Op::prepare};
    step.a = dice.once_in(20) ? number_near(dice, 4) : 1 + dice.below(3);
    const uint64_t count = dice.once_in(40) ? 32 : dice.once_in(3) ? dice.below(6) : 1;
    while (step.edits.size() < count)
        step.edits.push_back(some_edit(dice, known));
    return step;
}

static Step some_commit(Dice &dice)
{
    Step step{Op::commit};
    step.a = dice.once_in(6) ? 0 : dice.once_in(12) ? 65536 + dice.below(9) : 1 + dice.below(65535);
    step.b = dice.once_in(2) ? dice.below(6) : ~uint64_t(0);
    step.way = unsigned(dice.below(6));
    return step;
}

static Step some_load(Dice &dice, const Known &known, bool packed)
{
    Step step{packed ? Op::load_packed : Op::load_loose};
    step.a = number_near(dice, known.names);
    step.b = packed ? dice.below(2) : dice.below(4);
    if (step.b == DEHLBAZIN_KIND_OBJECT)
        step.c = some_object(dice);
    if (step.b == DEHLBAZIN_KIND_LINK)
        step.c = number_near(dice, known.names);
    return step;
}

// On a name, or on the packed table with any number. No other kind can be said with types.
static Step some_locking(Dice &dice, const Known &known, Op op)
{
    Step step{op};
    step.a = dice.once_in(2) ? DEHLBAZIN_LOCKABLE_PACKED_TABLE : DEHLBAZIN_LOCKABLE_NAME;
    const bool any = step.a == DEHLBAZIN_LOCKABLE_PACKED_TABLE && dice.once_in(2);
    step.b = any ? dice.any() : number_near(dice, known.names);
    return step;
}

// A settings record, which ends what the store was: so it is mostly one that is refused.
static Step some_start_with_settings(Dice &dice)
{
    Step step{Op::start_with_settings};
    step.bytes = std::string("\x02\x00\x10\x00\x02\x01\x01\x00\x02\x02\x01\x00\x01\x03\x00\x03\x04\x00\x07", 19);
    step.bytes[6] = char(dice.below(3));
    if (dice.once_in(20))
        return step;
    const size_t at = dice.below(step.bytes.size() - 2);
    step.bytes[at] = char(step.bytes[at] ^ char(4u << dice.below(6)));
    if (dice.once_in(4))
        step.bytes.resize(dice.once_in(2) ? dice.below(step.bytes.size()) : 20 + dice.below(1000));
    return step;
}

// The next piece of the list that is on its way, or bytes that are too many; when all is taken, mostly the closing.
static Step some_arrival(Dice &dice, const Known &known)
{
    const size_t left = known.list.size() - known.taken;
    if (left == 0 ? !dice.once_in(4) : dice.once_in(12)) {
        Step step{Op::close_receiver};
        step.a = dice.once_in(20) ? number_near(dice, 4) : 1 + dice.below(3);
        return step;
    }
    Step step{Op::take_fragment};
    step.way = unsigned(dice.below(2));
    const size_t lengths[] = {0, 1, 4, 27, 512, left, left, left};
    if (dice.once_in(15))
        step.bytes = std::string(dice.once_in(2) ? 869 : 1 + dice.below(2000), 'x');
    else
        step.bytes = known.list.substr(known.taken, dice.one_of(lengths));
    return step;
}

static std::string some_line(Dice &dice, const std::string &name)
{
    static const char hex[] = "0123456789abcdef";
    std::string line(24, '0');
    const uint64_t object = some_object(dice);
    for (int shift = 60; shift >= 0; shift -= 4)
        line += hex[object >> shift & 15];
    return line + " " + name + "\n";
}

// Some of the names that can be packed, as they rise; and now and then a byte changed or more, or a line that cannot be read there.
static Step some_text(Dice &dice)
{
    static const char *const rising[] = {"refs/heads/a", "refs/heads/a/e", "refs/heads/b",
                                         "refs/notes/n", "refs/tags/a",    "refs/x/y"};
    Step step{Op::read_packed};
    step.way = unsigned(dice.below(3));
    if (dice.once_in(3))
        step.bytes = "# a comment\n";
    for (const char *name : rising) {
        if (dice.once_in(2))
            continue;
        step.bytes += some_line(dice, name);
        if (dice.once_in(6))
            step.bytes += "^" + std::string(40, 'e') + "\n";
    }
    if (dice.once_in(8))
        step.bytes += some_line(dice, some_name(dice));
    if (dice.once_in(6) && !step.bytes.empty())
        step.bytes[dice.below(step.bytes.size())] = char(dice.any());
    if (dice.once_in(12))
        step.bytes.resize(dice.below(step.bytes.size() + 2));
    return step;
}

static Step some_writing(Dice &dice)
{
    Step step{Op::write_packed};
    step.way = unsigned(dice.below(2));
    step.a = dice.once_in(3) ? DEHLBAZIN_PACKED_TEXT_MOST_BYTES : dice.once_in(2) ? dice.below(400) : 54 * dice.below(6);
    return step;
}

// Any call that takes a region or a receiver, with numbers that are good for the most part.
static Step some_step(Dice &dice, const Known &known)
{
    Step step{Op(dice.below(OPS))};
    step.way = unsigned(dice.below(6));
    switch (step.op) {
    case Op::start:
        step.a = dice.once_in(20) ? dice.below(3) : 3 + (dice.any() << 2);
        return step;
    case Op::add_name:
        step.bytes = some_name(dice);
        return step;
    case Op::load_loose:
    case Op::load_packed:
        return some_load(dice, known, step.op == Op::load_packed);
    case Op::place_lock:
    case Op::lift_lock:
        return some_locking(dice, known, step.op);
    case Op::start_with_settings:
        return some_start_with_settings(dice);
    case Op::fresh_receiver:
        return dice.once_in(8) ? step : some_arrival(dice, known);
    case Op::take_fragment:
    case Op::close_receiver:
        return some_arrival(dice, known);
    case Op::prepare:
        return some_prepare(dice, known);
    case Op::commit:
        return some_commit(dice);
    case Op::write_packed:
        return some_writing(dice);
    case Op::read_packed:
        return some_text(dice);
    case Op::read_row:
        step.a = number_near(dice, 4);
        return step;
    default:
        step.a = number_near(dice, known.names);
        step.b = number_near(dice, 3);
        return step;
    }
}

// Mostly the call that brings a store on its way to a commit.
static Step next_step(Dice &dice, Known &known)
{
    if (known.list.empty())
        known.list = list_bytes(some_prepare(dice, known).edits);
    if (dice.once_in(2))
        return some_step(dice, known);
    if (dice.once_in(3))
        return some_arrival(dice, known);
    if (known.prepared)
        return dice.once_in(2) ? some_commit(dice) : Step{Op::read_row, number_near(dice, 4)};
    if (dice.once_in(4))
        return some_locking(dice, known, Op::lift_lock);
    if (known.names < 4) {
        Step step{Op::add_name};
        step.bytes = some_name(dice);
        return step;
    }
    return dice.once_in(3) ? some_load(dice, known, dice.once_in(3)) : some_prepare(dice, known);
}

static void learn(Known &known, const Step &step, const Reply &reply)
{
    if ((step.op == Op::start || step.op == Op::start_with_settings) && reply.number == 0)
        known = {};
    if (step.op == Op::add_name && reply.number == 0)
        known.names = std::max(known.names, reply.places[0] + 1);
    if (step.op == Op::read_packed && reply.number == 0)
        known.names = std::max(known.names, reply.places[0]); // there are so many at least
    if (step.op == Op::take_fragment && reply.number == 0)
        known.taken = std::min(known.list.size(), known.taken + step.bytes.size());
    if (step.op == Op::fresh_receiver || step.op == Op::close_receiver) {
        known.list.clear();
        known.taken = 0;
    }
    if (step.op == Op::prepare || step.op == Op::close_receiver)
        known.prepared = reply.number == 0 || reply.number == 15;
    if ((step.op == Op::commit && reply.number != 2) || step.op == Op::rollback)
        known.prepared = false;
}

static std::string describe(const Step &step, const Reply &typed, const Reply &plain)
{
    return "op " + std::to_string(int(step.op)) + " (" + std::to_string(step.a) + ", " + std::to_string(step.b) + ", " +
           std::to_string(step.c) + ") '" + step.bytes + "', " + std::to_string(step.edits.size()) + " edits: typed " +
           std::to_string(typed.number) + ", plain " + std::to_string(plain.number);
}

// Two regions and two receivers, and what was made on both.
struct Pair {
    Region typed_region{}, plain_region{};
    ReceiverBytes typed_receiver{}, plain_receiver{};
    Typed typed;
    Known known;
    Tally numbers, done, closings, readings, writings; // the last two of texts
    Tally placed, lifted;          // locks, by the kind of what has them
    Tally name_places, row_places; // where the calls that read found values

    Pair() : typed(started(), typed_receiver) {}

    void make(const Step &step)
    {
        const bool silent = step.op == Op::rollback && step.way % 3 == 0 && typed.has_transaction();
        const Reply plain = make_plainly(step, plain_region, plain_receiver), reply = typed.make(step);
        if (!silent || plain.number == 0) // a transaction that is let go cannot say that it was refused
            check(reply == plain, describe(step, reply, plain));
        check(typed_region == plain_region, "the same bytes after " + describe(step, reply, plain));
        check(typed_receiver == plain_receiver, "the same receivers after " + describe(step, reply, plain));
        learn(known, step, plain);
        numbers.given[plain.number]++;
        if (step.op == Op::close_receiver)
            closings.add(plain.number);
        if (step.op == Op::read_packed)
            readings.add(plain.number);
        if (step.op == Op::write_packed)
            writings.add(plain.number);
        last = plain.number;
        if (!refused())
            done.given[size_t(step.op)]++;
        if (!refused() && step.op == Op::place_lock)
            placed.add(uint32_t(step.a));
        if (!refused() && step.op == Op::lift_lock)
            lifted.add(uint32_t(step.a));
        if (!refused() && step.op == Op::read_name)
            name_places.add(uint32_t(plain.places[DEHLBAZIN_READ_NAME_PLACE]));
        if (!refused() && step.op == Op::read_row)
            row_places.add(uint32_t(plain.places[DEHLBAZIN_READ_ROW_FOUND]));
    }
    void turn_over(size_t at, uint8_t bits)
    {
        typed_region[at] ^= bits;
        plain_region[at] ^= bits;
    }
    void turn_receiver(size_t at, uint8_t bits)
    {
        typed_receiver[at] ^= bits;
        plain_receiver[at] ^= bits;
    }
    bool refused() const { return last != 0 && last != 16 && last != 17; }

private:
    uint32_t last = 0;

    Region &started()
    {
        (void)dehlbazin::Store::start(typed_region, dehlbazin::Setting::normal).value();
        plain_region = typed_region;
        return typed_region;
    }
};

// One bit, once in so many times, else none.
static uint8_t some_bit(Dice &dice, uint64_t times) { return dice.once_in(times) ? uint8_t(1u << dice.below(8)) : uint8_t(0); }

// Now and then a bit of both regions is turned over before a call, or of both receivers, and back where the call left them as they
// were.
static void make_one(Dice &dice, Pair &pair)
{
    const size_t at = dice.below(DEHLBAZIN_REGION_SIZE), in_receiver = dice.below(dice.once_in(2) ? DEHLBAZIN_RECEIVER_SIZE : 40);
    const uint8_t bits = some_bit(dice, 50), receiver_bits = some_bit(dice, 30);
    pair.turn_over(at, bits);
    pair.turn_receiver(in_receiver, receiver_bits);
    const Region region = pair.plain_region;
    const ReceiverBytes receiver = pair.plain_receiver;
    pair.make(next_step(dice, pair.known));
    if (pair.plain_region == region)
        pair.turn_over(at, bits);
    if (pair.plain_receiver == receiver)
        pair.turn_receiver(in_receiver, receiver_bits);
}

void test_same(size_t calls, uint64_t seed)
{
    std::printf("same: %zu calls, seed %llu\n", calls, static_cast<unsigned long long>(seed));
    Dice dice(seed);
    Pair pair;
    for (size_t made = 0; made < calls; made++)
        make_one(dice, pair);
    pair.numbers.all_met("the calls", {0,  1,  2,  3,  4,  6,  7,  8,  9,  10, 11, 12, 13,
                                       15, 16, 17, 18, 20, 21, 22, 23, 24, 25, 26, 27, 32});
    pair.closings.all_met("closings", {0, 1, 2, 3, 4, 6, 7, 8, 9, 10, 11, 12, 15, 25});
    pair.readings.all_met("texts that are read", {0, 1, 15, 21, 27});
    pair.writings.all_met("texts that are written", {0, 1, 32});
    pair.name_places.all_met("the places of names", {1, 2, 3, 4, 5});
    pair.row_places.all_met("the places of rows", {1, 2, 4, 5}); // 3 is too rare to be asked for
    for (uint64_t kind : {DEHLBAZIN_LOCKABLE_NAME, DEHLBAZIN_LOCKABLE_PACKED_TABLE})
        check(pair.placed.given[kind] > calls / 2000 && pair.lifted.given[kind] > calls / 2000,
              "locks of kind " + std::to_string(kind) + " are hardly ever placed or lifted");
    for (size_t op = 0; op < OPS; op++)
        check(pair.done.given[op] > calls / 2000,
              "call " + std::to_string(op) + " was done " + std::to_string(pair.done.given[op]) + " times");
}
