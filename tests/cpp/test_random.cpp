// Long walks of random calls, random edit lists, and random stores: good ones, careless ones, and with random bytes changed.
#include "arrivals.h"
#include "preparing.h"
#include "random_calls.h"
#include "tally.h"
#include "tests.h"

#include <algorithm>

// Two regions at a time, in turns, and a receiver that is closed on either: a call leaves nothing behind that the next one would
// see.
static void test_walks()
{
    Tally calls, preparations, commits;
    Arrived arrived;
    Dock dock;
    for (uint64_t walk = 0; walk < 60; walk++) {
        Dice dice(walk);
        auto begin = [&](bool with_rows) {
            const size_t some_names[] = {0, 1, 3, 8, 12, 25, 40, 255}, some_lines[] = {0, 1, 9, 50, 1024};
            size_t names = dice.one_of(some_names), lines = dice.one_of(some_lines);
            return random_store(dice, names, lines, with_rows);
        };
        World first(dice.once_in(3) ? begin(false) : ready_store(dice)), second(begin(true));
        Arrivals arrivals(arrived);
        for (int step = 0; step < 200; step++)
            for (World *world : {&first, &second}) {
                const Call call = random_call(dice, world->store());
                Tally &tally = call.op == Op::prepare ? preparations : call.op == Op::commit ? commits : calls;
                tally.given[world->agrees(call).number]++;
                arrivals.step(dice, dock, dice.once_in(2) ? first : second);
            }
    }
    calls.all_met("random calls but prepare and commit", {0, 2, 3, 15, 18, 19, 20, 21, 22, 27, 32});
    preparations.all_met("prepare among random calls", {0, 2, 3, 4, 6, 7, 8, 9, 10, 11, 12, 13, 14, 15, 25});
    commits.all_met("commit among random calls", {0, 2, 15, 16, 17});
    arrived.all_met("among random calls");
}

// Lists on stores where many of them are prepared. The rows are read, and rolling back leaves the region from before.
static void test_preparations()
{
    Tally preparations;
    for (uint64_t round = 0; round < 250; round++) {
        Dice dice(5000 + round);
        World world(ready_store(dice));
        for (int list = 0; list < 20; list++)
            preparations.given[prepare_and_roll_back(world, random_prepare(dice, world.store()))]++;
    }
    preparations.all_met("prepare on random stores", {0, 2, 3, 4, 6, 7, 8, 9, 10, 11, 12, 13, 14, 25});
    check(preparations.given[0] > 1500, "many random lists are prepared");
}

// Stores whose values and rows were thrown without a look at which names lie beneath others. Some are good by chance; of the others
// the values alone are bad, or the rows beside them.
static void test_careless()
{
    size_t good = 0, bad_values = 0, bad_rows = 0;
    for (uint64_t round = 0; round < 3000; round++) {
        Dice dice(9000 + round);
        size_t names = 2 + dice.below(7), lines = dice.below(3);
        const Store store = careless_store(dice, names, lines, !dice.once_in(3));
        Store values = store;
        forget_transaction(values);
        (is_good(store) ? good : is_good(values) ? bad_rows : bad_values)++;
        taken_for(is_good(store), encode(store), "a careless store, round " + std::to_string(round));
    }
    check(good > 300 && bad_values > 300 && bad_rows > 200, "careless stores: " + std::to_string(good) + " good, " +
                                                                std::to_string(bad_values) + " with bad values, " +
                                                                std::to_string(bad_rows) + " with bad rows");
}

// A byte of a slot that is in use, or of the first that is not.
static size_t place_in_use(Dice &dice, const Store &s)
{
    size_t names = s.entries.size(), rows = s.rows.size(), lines = s.lines.size();
    const std::pair<Table, size_t> tables[] = {
        {NAMES, names}, {LOOSE, names}, {PACKED, names}, {LOCKS, names}, {ROWS, rows}, {ROWS, rows}, {LINES, lines},
    };
    if (dice.once_in(8))
        return dice.below(NAMES.at);
    auto [table, used] = dice.one_of(tables);
    size_t slot = table.slot(dice.below(std::min(used + 1, table.most)));
    return slot + (table.at == NAMES.at && !dice.once_in(3) ? dice.below(20) : dice.below(table.width));
}

static void test_changed_bytes()
{
    size_t good = 0, bad = 0;
    for (uint64_t round = 0; round < 400; round++) {
        Dice dice(1000 + round);
        size_t names = 1 + dice.below(12), lines = dice.below(12);
        const Store store = random_store(dice, names, lines, !dice.once_in(4));
        const Bytes image = encode(store);
        taken_for(true, image, "a random store, round " + std::to_string(round));
        for (int change = 0; change < 50; change++) {
            Bytes region = image;
            std::string what = "round " + std::to_string(round) + ", with";
            for (uint64_t bytes = 1 + dice.below(3); bytes > 0; bytes--) {
                size_t at = place_in_use(dice, store);
                uint8_t byte = uint8_t(dice.once_in(3) ? dice.any() : dice.below(6));
                region[at] = byte;
                what += " byte " + std::to_string(at) + " " + std::to_string(byte);
            }
            bool is_good = decode(region).has_value();
            (is_good ? good : bad)++;
            taken_for(is_good, region, what);
        }
    }
    check(good > 1000 && bad > 1000, "changed bytes make good regions and bad ones");
}

void test_random()
{
    test_walks();
    test_preparations();
    test_careless();
    test_changed_bytes();
}
