// Foreign locks: only a free one is placed, only a foreign one lifted. What is locked is said by a kind and a number.
#include "entries.h"
#include "samples.h"
#include "tests.h"
#include "world.h"

#include <algorithm>

static const uint64_t PAST_32 = uint64_t(1) << 32, LAST_BIT = uint64_t(1) << 63;

// Numbers beside a kind: of names, of no name in most stores, and of none in any.
static const uint64_t NUMBERS[] = {0, 1, 2, 5, 255, 256, 257, 65535, 65536, PAST_32, PAST_32 + 1, LAST_BIT, ~uint64_t(0)};

// Names and the packed table with locks of each state, nothing prepared and something.
static std::vector<Store> stores()
{
    return {Store{}, plain(2), plain(256), busy(), prepared(), prepared_in(1), prepared_in(3), unopened()};
}

static std::vector<uint64_t> every_kind()
{
    std::vector<uint64_t> kinds = other_kinds();
    kinds.insert(kinds.begin(), {LOCKABLE_NAME, LOCKABLE_PACKED_TABLE});
    return kinds;
}

static std::vector<Call> both(uint64_t kind, uint64_t number)
{
    return {call::place_lock(kind, number), call::lift_lock(kind, number)};
}

static void test_states()
{
    World world(busy());
    for (uint64_t name : {0, 1, 3}) { // free
        world.gives(call::lift_lock_of_name(name), 20);
        world.gives(call::place_lock_on_name(name), 0);
        world.gives(call::place_lock_on_name(name), 20);
    }
    for (uint64_t name : {2, 4, 0}) { // foreign
        world.gives(call::place_lock_on_name(name), 20);
        world.gives(call::lift_lock_of_name(name), 0);
        world.gives(call::lift_lock_of_name(name), 20);
    }

    world.gives(call::place_lock_on_packed(), 20);
    world.gives(call::lift_lock_of_packed(), 0);
    world.gives(call::lift_lock_of_packed(), 20);
    world.gives(call::place_lock_on_packed(), 0);
    world.gives(call::place_lock_on_packed(), 20);

    // Loads ignore locks, and rollback leaves foreign ones.
    world.gives(call::place_lock_on_name(4), 0);
    world.gives(call::load_loose(4, OBJECT, 3), 0);
    world.gives(call::load_packed(4, OBJECT, 4), 0);
    world.gives(call::rollback(), 0, {0});
    world.gives(call::place_lock_on_name(4), 20);
    world.gives(call::place_lock_on_packed(), 20);
}

// A number that is no name's comes back whole.
static void test_not_registered()
{
    World world(busy());
    for (uint64_t k = 0; k < 6; k++)
        for (uint64_t name : too_large(k))
            for (const Call &call : both(LOCKABLE_NAME, name))
                world.gives(call, 3, {name});
    for (const Store &store : stores()) {
        World other(store);
        for (uint64_t number : NUMBERS)
            if (number >= store.entries.size())
                for (const Call &call : both(LOCKABLE_NAME, number))
                    other.gives(call, 3, {number});
        for (const Call &call : both(LOCKABLE_NAME, store.entries.size()))
            other.gives(call, 3, {store.entries.size()});
    }
}

// A kind that there is not is refused whatever the number beside it: before one that is no name's, and while prepared too.
static void test_other_kinds()
{
    for (const Store &store : stores()) {
        World world(store);
        for (uint64_t kind : other_kinds())
            for (uint64_t number : NUMBERS)
                for (const Call &call : both(kind, number))
                    world.gives(call, 2);
    }
}

// The call gives 1, and leaves a region that is not good as it is.
static void is_refused(const Call &call, const Bytes &region)
{
    Lent lent(region), record(ANSWER, 0xEE);
    uint32_t number = run(call, lent.data(), lent.size(), record.data(), record.size());
    check(number == 1, describe(call) + " on a bad region: number " + std::to_string(number));
    check(lent.holds(region), describe(call) + " on a bad region: the region is changed");
    check(record.is_filled(0), describe(call) + " on a bad region: the record is not all 0");
    check(lent.is_alone() && record.is_alone(), describe(call) + " on a bad region: bytes before them are written");
}

// The region comes before the kind and the number. One defect each: the version, a byte of no state in either lock, the last byte.
static void test_bad_regions()
{
    const std::pair<size_t, uint8_t> defects[] = {{0, 2}, {AT_PACKED_LOCK, 3}, {LOCKS.slot(0), 3}, {REGION - 1, 1}};
    for (const Store &store : {busy(), prepared()})
        for (const auto &[at, byte] : defects) {
            Bytes region = encode(store);
            region[at] = byte;
            for (uint64_t kind : every_kind())
                for (uint64_t number : {uint64_t(0), ~uint64_t(0)})
                    for (const Call &call : both(kind, number))
                        is_refused(call, region);
        }
}

// The call turns its lock, which is this byte of the region, from one state to the other, and no other byte. In any other state it
// is refused.
static void turns(const Store &store, const Call &call, size_t lock, uint8_t from, uint8_t to, AT_CALLER)
{
    Bytes wanted = encode(store);
    const bool done = wanted[lock] == from;
    if (done)
        wanted[lock] = to;
    World world(store);
    world.gives(call, done ? 0 : 20, {}, at);
    check(world.region().holds(wanted), describe(call) + ": not its lock alone is turned", at);
}

static void turns_both_ways(const Store &store, uint64_t kind, uint64_t number, size_t lock, AT_CALLER)
{
    turns(store, call::place_lock(kind, number), lock, FREE, FOREIGN, at);
    turns(store, call::lift_lock(kind, number), lock, FOREIGN, FREE, at);
}

// Each name by its number. The packed table has one answer and leaves one region, with whatever number.
static void test_each()
{
    for (const Store &store : stores()) {
        for (size_t name = 0; name < std::min<size_t>(store.entries.size(), 6); name++)
            turns_both_ways(store, LOCKABLE_NAME, name, LOCKS.slot(name));
        for (uint64_t number : NUMBERS)
            turns_both_ways(store, LOCKABLE_PACKED_TABLE, number, AT_PACKED_LOCK);
    }
    for (size_t name : {254, 255})
        turns_both_ways(plain(256), LOCKABLE_NAME, name, LOCKS.slot(name));
}

// The locks of two names and of the packed table, free and foreign in each combination: none is taken for another.
static void test_crossing()
{
    for (unsigned held = 0; held < 8; held++) {
        Store store = plain(2);
        store.entries[0].lock = held & 1 ? FOREIGN : FREE;
        store.entries[1].lock = held & 2 ? FOREIGN : FREE;
        store.packed_lock = held & 4 ? FOREIGN : FREE;
        for (uint64_t number : {0, 1}) {
            turns_both_ways(store, LOCKABLE_NAME, number, LOCKS.slot(number));
            turns_both_ways(store, LOCKABLE_PACKED_TABLE, number, AT_PACKED_LOCK);
        }
    }
}

// The packed table has a lock where there are no names yet, and one number lifts what another placed.
static void test_no_names()
{
    World world;
    for (uint64_t number : NUMBERS) {
        world.gives(call::lift_lock_of_packed(number), 20);
        world.gives(call::place_lock_on_packed(number), 0);
        world.gives(call::place_lock_on_packed(~number), 20);
        world.gives(call::place_lock_on_name(0), 3, {0});
        world.gives(call::lift_lock_of_name(0), 3, {0});
        world.gives(call::lift_lock_of_packed(~number), 0);
    }
}

// One call after the other on each store, of every kind with every number: what one leaves the next one meets. Some locks that are
// placed are not lifted again.
static void test_in_turn()
{
    for (const Store &store : stores()) {
        World world(store);
        for (uint64_t number : NUMBERS) {
            for (uint64_t kind : every_kind())
                world.agrees(call::place_lock(kind, number));
            for (uint64_t kind : every_kind())
                if (number % 2 == 0)
                    world.agrees(call::lift_lock(kind, number));
        }
    }
}

void test_locks()
{
    test_states();
    test_not_registered();
    test_other_kinds();
    test_bad_regions();
    test_each();
    test_crossing();
    test_no_names();
    test_in_turn();
}
