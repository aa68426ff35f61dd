// Random texts on random stores, good and damaged, read and written; and what was written by one store read in others.
#include "packed_text.h"
#include "random_calls.h"
#include "random_texts.h"
#include "share.h"
#include "tally.h"
#include "tests.h"
#include "world.h"

// So many on every machine.
static const size_t STORES = 3000, TEXTS = 12, TRIPS = 1500;

struct Met {
    Tally readings, writings, trips;
};

// The dice of a number are the same in each run.
static Dice dice_of(uint64_t kind, size_t number) { return Dice(kind * 0x9E3779B97F4A7C15 + number); }

// Of few names, or with little room for more of them, or with none.
static Store some_store(Dice &dice, bool with_rows)
{
    const size_t some_names[] = {0, 1, 2, 3, 5, 8, 12, 20, 40, 256}, some_lines[] = {0, 0, 1, 9};
    const size_t names = dice.one_of(some_names), lines = dice.one_of(some_lines);
    Store store = random_store(dice, names, lines, with_rows);
    if (names < MOST_NAMES)
        return store;
    for (size_t n = 0; store.entries.size() < MOST_NAMES; n++)
        store.entries.push_back({"refs/filled/" + std::to_string(n), {}, 0, FREE});
    const size_t less[] = {0, 0, 1, 2, 4};
    if (store.rows.empty() && store.lines.empty() && lines == 0)
        for (size_t left = dice.one_of(less); left > 0 && store.entries.back().name.rfind("refs/filled/", 0) == 0; left--)
            store.entries.pop_back();
    return store;
}

// Each text is read in what the last one left, and what is there then is written.
static void read_and_write(size_t number, Met &met)
{
    Dice dice = dice_of(4, number);
    about("random texts of store " + std::to_string(number));
    World world(some_store(dice, dice.once_in(10)));
    for (size_t i = 0; i < TEXTS; i++) {
        world.agrees(call::read_packed(random_text(dice, world.store())));
        met.readings.add(world.number());
        world.agrees(random_write_packed(dice, world.store()));
        met.writings.add(world.number());
    }
}

// What the archive itself writes of a store.
static std::string written_by(World &world)
{
    world.agrees(call::write_packed(std::string(packed_text::MOST_BYTES, 'x')));
    return world.buffer().substr(0, world.place(0));
}

// Reading in the same store changes no byte, though a prepared one refuses it. In another the tables become the same, unless there
// is no room for the names; then nothing changes. Written again, the text is the same.
static void trip(size_t number, Met &met)
{
    Dice dice = dice_of(5, number);
    about("round trip " + std::to_string(number));
    const Store from = some_store(dice, dice.once_in(10));
    World same(from), other(some_store(dice, false)), empty(uint8_t(dice.below(3)));
    const std::string text = written_by(same);
    same.agrees(call::read_packed(text));
    check(same.number() == (from.mode == 0 ? 0 : 15), "reading what the store wrote gives " + std::to_string(same.number()));
    check(same.region().holds(encode(from)), "reading what the store wrote changes it");
    for (World *world : {&other, &empty}) {
        const Bytes before = encode(world->store());
        world->agrees(call::read_packed(text));
        met.trips.add(world->number());
        const bool is_read = world->number() == 0;
        check(is_read || (world == &other && world->number() == 19), "a store does not read what another wrote");
        check(is_read ? written_by(*world) == text : world->region().holds(before), "the text, or the region that refused it");
    }
}

template <typename One> static void many(size_t count, const One &one)
{
    share_out(count, [&](size_t first, size_t end) {
        for (size_t number = first; number < end; number++)
            one(number);
    });
}

void test_packed_random()
{
    Met met;
    many(STORES, [&](size_t number) { read_and_write(number, met); });
    many(TRIPS, [&](size_t number) { trip(number, met); });
    about("");
    met.readings.all_met("reading random texts", {0, 15, 19, 21, 27});
    met.writings.all_met("writing random tables", {0, 32});
    met.trips.all_met("reading what other stores wrote", {0, 19});
    check(met.readings.given[0] > 5000 && met.readings.given[27] > 5000, "many random texts are read, and many are not");
}
