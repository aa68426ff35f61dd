// Many short sequences of random calls, all that take a region or a receiver, each on a region and a receiver of its own. After
// each call all is compared.
#include "arrivals.h"
#include "nearness.h"
#include "random_calls.h"
#include "random_settings.h"
#include "share.h"
#include "tally.h"
#include "tests.h"
#include "world.h"

#include <algorithm>
#include <cstdio>

static const int STEPS = 12;

// With fewer sequences than this, some numbers may not come at all.
static const size_t ENOUGH = 10000;

// Which numbers were given where locks were placed or lifted, by what it was done to: a name, the packed table, or neither.
struct Locking {
    Tally placed[3], lifted[3];

    void add(const Call &call, uint32_t number)
    {
        const size_t kind = size_t(std::min<uint64_t>(call.a, 2));
        if (call.op == Op::place_lock)
            placed[kind].add(number);
        if (call.op == Op::lift_lock)
            lifted[kind].add(number);
    }

    void all_met() const
    {
        placed[0].all_met("locks placed on names in sequences", {0, 3, 20});
        lifted[0].all_met("locks lifted from names in sequences", {0, 3, 20});
        placed[1].all_met("locks placed on the packed table in sequences", {0, 20});
        lifted[1].all_met("locks lifted from the packed table in sequences", {0, 20});
        placed[2].all_met("locks placed on neither in sequences", {2});
        lifted[2].all_met("locks lifted from neither in sequences", {2});
        for (size_t kind : {0, 1})
            check(placed[kind].given[0] > 100 && lifted[kind].given[0] > 100, "a lock is hardly ever placed or lifted");
    }
};

// What came in all sequences: how often each call was done, which numbers were given, those of prepare, of commit and of texts
// apart, where values were found, how often names above and beneath others mattered, and what came to the receivers.
struct Met {
    std::atomic<size_t> done[OPS] = {};
    Tally calls, preparations, commits, starts, text_readings, text_writings;
    Locking locking;
    Tally name_places, row_places, unseen; // the last of rows that do not see what is packed, where read_name would
    Nearness near;
    Arrived arrived;

    void add(const Call &call, uint32_t number)
    {
        Tally &tally = call.op == Op::prepare ? preparations : call.op == Op::commit ? commits : calls;
        tally.given[number]++;
        if (call.op == Op::read_packed)
            text_readings.add(number);
        if (call.op == Op::write_packed)
            text_writings.add(number);
        locking.add(call, number);
        if (number == 0)
            done[size_t(call.op)]++;
    }

    // A read that was done, on this store.
    void add_places(const Call &call, const Answer &given, const Store &store)
    {
        if (given.number != 0)
            return;
        if (call.op == Op::read_name)
            name_places.add(uint32_t(given.places[2]));
        if (call.op != Op::read_row)
            return;
        row_places.add(uint32_t(given.places[13]));
        if (given.places[13] != reading_place(store.entries[given.places[0]]))
            unseen.add(uint32_t(given.places[13]));
    }

    void all_met() const
    {
        calls.all_met("sequences, but for prepare and commit,", {0, 2, 3, 15, 18, 19, 20, 21, 22, 27, 32});
        text_readings.all_met("texts read in sequences", {0, 15, 21, 27});
        text_writings.all_met("texts written in sequences", {0, 32});
        preparations.all_met("prepare in sequences", {0, 2, 3, 4, 6, 7, 8, 9, 10, 11, 12, 13, 14, 15, 25});
        commits.all_met("commit in sequences", {0, 2, 15, 16, 17});
        starts.all_met("start with settings in sequences", {0, 23, 24});
        locking.all_met();
        name_places.all_met("the places of names in sequences", {1, 2, 3, 4, 5});
        row_places.all_met("the places of rows in sequences", {1, 2, 3, 4, 5});
        unseen.all_met("the places of rows that do not see what is packed, in sequences", {4}); // 5 is too rare to be asked for
        near.all_met("sequences");
        arrived.all_met("in sequences");
        for (size_t op = 0; op < OPS; op++)
            check(done[op] > 100, describe({Op(op), {}}) + " is hardly ever done");
    }
};

// A store of few names mostly, with a log that is short, or full, or nearly so.
static Store beginning(Dice &dice)
{
    const size_t some_names[] = {1, 2, 3, 5, 8, 12, 16, 20}, some_lines[] = {0, 0, 1, 3, 9, 20, 1020, 1023, 1024};
    size_t names = dice.once_in(200) ? 256 : dice.one_of(some_names), lines = dice.one_of(some_lines);
    return ready_store(dice, names, lines);
}

// Some begin with a start, whatever the region holds, and some have a start with a settings record among their calls. Between them
// the pieces of lists arrive at a receiver, which is closed when they are all there, whatever became of the store meanwhile.
static void play(Dice &dice, Dock &dock, Met &met)
{
    World world(beginning(dice));
    Arrivals arrivals(met.arrived);
    NearWalk near(met.near);
    auto make = [&](const Call &call) {
        const Store before = world.store();
        const Answer given = world.agrees(call);
        met.add(call, given.number);
        met.add_places(call, given, before);
        near.add(call, given, before, world.store());
    };
    if (dice.once_in(4))
        make(call::start(dice.below(3)));
    for (int step = 0; step < STEPS; step++) {
        if (dice.once_in(200))
            met.starts.add(world.starts(dice.once_in(4) ? damaged_record(dice) : good_record(dice)).number);
        make(next_call(dice, world.store()));
        for (uint64_t more = dice.below(3); more > 0; more--)
            arrivals.step(dice, dock, world);
    }
}

// The sequence of a number is always the same, for one seed.
void test_sequences(size_t count, uint64_t seed)
{
    std::printf("%zu sequences with seed %llu\n", count, static_cast<unsigned long long>(seed));
    Met met;
    share_out(count, [&](size_t first, size_t end) {
        Dock dock;
        for (size_t number = first; number < end; number++) {
            about("sequence " + std::to_string(number) + " of seed " + std::to_string(seed));
            Dice dice(seed + number * 0x9E3779B97F4A7C15);
            play(dice, dock, met);
        }
    });
    if (count >= ENOUGH)
        met.all_met();
}
