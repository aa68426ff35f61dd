// Random settings records and orders, good and damaged: the archive and our own reader and writer agree on the number, on all 128
// bytes of the answer and on every byte of the buffer.
#include "dehlbazin.h"
#include "desk.h"
#include "random_settings.h"
#include "samples.h"
#include "share.h"
#include "tally.h"
#include "tests.h"
#include "world.h"

#include <algorithm>

using namespace settings;

// So many records are read, and so many orders written, on every machine.
static const size_t RECORDS = 120000, ORDERS = 120000, STARTS = 3000;

// The dice of a number are the same in each run.
static Dice dice_of(uint64_t kind, size_t number) { return Dice(kind * 0x9E3779B97F4A7C15 + number); }

struct Met {
    Tally readings, committers, writings;
};

// A place that is there mostly, else one past the last.
static uint64_t some_place(Dice &dice, uint64_t count)
{
    if (count > 0 && !dice.once_in(4))
        return dice.below(count);
    const uint64_t past[] = {count, count + 1, dice.one_of(too_large(dice.below(count + 1))), dice.any()};
    return dice.one_of(past);
}

static void read_one(Desk &desk, size_t number, Met &met)
{
    Dice dice = dice_of(1, number);
    const Bytes record = dice.once_in(4) ? good_record(dice) : damaged_record(dice);
    about("random record " + std::to_string(number));
    for (uint64_t known : {VERSION_1, VERSION_2}) {
        met.readings.add(desk.reads(record, known));
        const uint64_t place = some_place(dice, read(record, known).committers.size());
        met.committers.add(desk.reads_committer(record, known, place));
    }
}

// What was written is read again, and what is read is written as the same bytes.
static void write_one(Desk &desk, size_t number, Met &met)
{
    Dice dice = dice_of(2, number);
    const Order order = dice.once_in(3) ? good_order(dice) : damaged_order(dice);
    const Bytes buffer = random_buffer(dice, order);
    about("random order " + std::to_string(number));
    const uint32_t given = desk.writes(order, buffer);
    met.writings.add(given);
    if (given != 0)
        return;
    Bytes record = desk.buffer();
    const uint64_t length = dehlbazin_place(desk.answer().data(), DEHLBAZIN_WRITE_SETTINGS_LENGTH);
    record.resize(std::min<uint64_t>(length, record.size()));
    check(desk.reads(record, order.version) == 0, "what was written is not read");
    const Settings read_back = settings_of(record, read(record, order.version));
    check(bytes_of(order.version, read_back) == record, "what was read is not written as the same bytes");
}

static void test_starts()
{
    Tally starts;
    World world(prepared());
    for (size_t number = 0; number < STARTS; number++) {
        Dice dice = dice_of(3, number);
        about("random start " + std::to_string(number));
        if (dice.once_in(20))
            world.agrees(call::add_name("HEAD"));
        starts.add(world.starts(dice.once_in(3) ? good_record(dice) : damaged_record(dice)).number);
    }
    starts.all_met("start with random records", {0, 23, 24});
}

template <typename One> static void many(size_t count, const One &one)
{
    share_out(count, [&](size_t first, size_t end) {
        Desk desk;
        for (size_t number = first; number < end; number++)
            one(desk, number);
    });
}

void test_settings_random()
{
    Met met;
    many(RECORDS, [&](Desk &desk, size_t number) { read_one(desk, number, met); });
    many(ORDERS, [&](Desk &desk, size_t number) { write_one(desk, number, met); });
    about("");
    met.readings.all_met("reading random records", {0, 23, 24});
    met.committers.all_met("reading their committers", {0, 22, 23, 24});
    met.writings.all_met("writing random settings", {0, 23, 24, 33});
    for (const Tally *tally : {&met.readings, &met.committers, &met.writings})
        check(tally->given[0] > 20000 && tally->given[23] > 20000, "many random records are good, and many are not");
    test_starts();
    about("");
}
