// Where commit is refused and where it stops, and what is left of a transaction then.
#include "committing.h"
#include "tests.h"

using namespace writes;

static const uint64_t ALL = ~uint64_t(0);

// Names 0 and 1 have no log of their own, 2 and 3 have one.
static Store half_logged()
{
    Store s = plain(4);
    s.entries[0].name = "refs/tags/0";
    s.entries[1].name = "refs/tags/1";
    return s;
}

// The store with this list prepared, and with the calls after it made.
static Store after_preparing(const Store &store, const std::vector<Edit> &edits, uint8_t mode,
                             const std::vector<Call> &calls = {}, AT_CALLER)
{
    World world(store);
    check(world.agrees(call::prepare(write_list(edits), mode), at).number == 0, "the list is prepared", at);
    for (const Call &call : calls)
        check(world.agrees(call, at).number == 0, describe(call) + " is done", at);
    return world.store();
}

// 15 comes first, then 2, which leaves the transaction prepared.
static void test_refused()
{
    World idle(busy());
    for (uint64_t committer : {uint64_t(0), uint64_t(1), uint64_t(65535), uint64_t(65536), ALL})
        for (uint64_t allowance : {uint64_t(0), uint64_t(1), ALL})
            idle.gives(call::commit(committer, allowance), 15);

    World world(prepared());
    for (uint64_t k : {0, 1, 65535})
        for (uint64_t committer : too_large(k))
            if (committer > 65535)
                for (uint64_t allowance : {uint64_t(0), uint64_t(1), uint64_t(65536), ALL})
                    world.gives(call::commit(committer, allowance), 2);
    world.gives(call::read_row(3), 0,
                {3, 2, 0, 0, 0, 4, OBJECT, 0x0102030405060708, NONE, 0, 0, 0, 0, PLACE_ABSENT_BEHIND_BROKEN});
    world.gives(call::place_lock_on_name(0), 20);
    world.gives(call::load_loose(5, OBJECT, 1), 15);
    world.gives(call::commit(65535, ALL), 0, {5});
    world.gives(call::read_line(0, 0), 0, {7, 8, 65535, 0x0203});
}

// An allowance is taken whole: what is small only in its low bits allows everything.
static void test_allowances()
{
    const Store store = after_preparing(half_logged(), {updating(0, object(5)), updating(1, object(6))}, 1);
    for (uint64_t k : {0, 1, 2})
        for (uint64_t allowance : too_large(k)) {
            World world(store);
            world.gives(call::commit(1, allowance), 0, {2});
        }
}

// Before each write 17 is looked at first, and 16 only where the write is a line.
static void test_no_committer()
{
    const std::vector<Edit> edits = {updating(0, object(5)), updating(2, object(6)), updating(1, object(7))};
    const Store store = after_preparing(half_logged(), edits, 1);
    auto stops = [&](uint64_t allowance, uint32_t number, uint64_t writes) {
        World world(store);
        world.gives(call::commit(0, allowance), number, {writes});
        if (writes > 0)
            world.gives(call::read_name(0), 0, {OBJECT, 5, PLACE_LOOSE});
        else
            world.gives(call::read_name(0), 0, {NONE, 0, PLACE_ABSENT});
        for (uint64_t name : {1, 2, 3}) {
            world.gives(call::read_name(name), 0, {NONE, 0, PLACE_ABSENT});
            world.gives(call::read_line(name, 0), 22);
        }
    };
    stops(0, 17, 0);
    stops(1, 17, 1);
    for (uint64_t allowance : {uint64_t(2), uint64_t(3), uint64_t(4), uint64_t(65536), ALL})
        stops(allowance, 16, 1);

    // The first write is a line.
    const Store first = after_preparing(half_logged(), {updating(2, object(6))}, 1);
    World none(first), one(first);
    none.gives(call::commit(0, 0), 17, {0});
    one.gives(call::commit(0, 1), 16, {0});

    // No line is due: nobody asks for a committer.
    const std::vector<Edit> tags = {updating(0, object(5)), deleting(2), updating(3, link(0))};
    commits(half_logged(), tags, 1, {loose(0, object(5)), loose(3, link(0))}, 0);
    Store silent = half_logged();
    silent.setting = 0;
    commits(silent, edits, 1, {loose(0, object(5)), loose(2, object(6)), loose(1, object(7))}, 0);
}

// Done or stopped, the transaction is over: what was ours is free, loads work, and the rest is prepared anew.
static void test_after()
{
    const std::vector<Edit> edits = {updating(2, object(6)), updating(0, object(5)), deleting(1)};
    Store store = half_logged();
    store.entries[1].packed = 9;
    for (uint64_t allowance : {uint64_t(0), uint64_t(2), ALL}) {
        World world(after_preparing(store, edits, 2));
        world.agrees(call::commit(1, allowance));
        world.gives(call::read_row(0), 22);
        world.gives(call::commit(1, ALL), 15);
        world.gives(call::rollback(), 0, {0});
        for (uint64_t name : {0, 1, 2, 3}) {
            world.gives(call::lift_lock_of_name(name), 20);
            world.gives(call::place_lock_on_name(name), 0);
            world.gives(call::lift_lock_of_name(name), 0);
        }
        world.gives(call::lift_lock_of_packed(), 20);
        world.gives(call::load_loose(3, LINK, 2), 0);
        world.gives(call::prepare(write_list(edits), 2), 0, {3});
        world.agrees(call::commit(2, ALL));
        world.gives(call::read_name(0), 0, {OBJECT, 5, PLACE_LOOSE});
        world.gives(call::read_name(1), 0, {NONE, 0, PLACE_ABSENT});
        world.gives(call::read_name(2), 0, {OBJECT, 6, PLACE_LOOSE});
        world.gives(call::read_line(2, 0), 0, {0, 6, allowance == 0 ? 2u : 1u, 0});
        world.gives(call::read_line(2, 1), 22);
    }
    // With nothing allowed it is as if rolled back.
    World stopped(after_preparing(store, edits, 2));
    stopped.gives(call::commit(1, 0), 17, {0});
    check(encode(stopped.store()) == encode(store), "a commit that may write nothing leaves the store from before");
}

// What others hold stays theirs: a lock that a row dropped and another took, one of a name outside the rows, and the packed table's
// where no row counts.
static void test_foreign()
{
    Store store = half_logged();
    store.entries[0].loose = object(5);
    store.entries[3].lock = FOREIGN;
    const std::vector<Call> others = {call::place_lock_on_name(0), call::add_name("refs/heads/new"), call::place_lock_on_name(4)};
    const Store held = after_preparing(store, {updating(0, object(5)), updating(1, object(6))}, 2, others);
    stops_everywhere(held, Led::by_calls, "locks of others");
    World world(held);
    world.gives(call::commit(0, ALL), 0, {2});
    for (uint64_t name : {0, 3, 4})
        world.gives(call::place_lock_on_name(name), 20);
    world.gives(call::place_lock_on_name(1), 0);
    world.gives(call::load_loose(0, NONE, 0), 0);
    world.gives(call::read_name(0), 0, {OBJECT, 5, PLACE_PACKED}); // though its lock was dropped

    store.packed_lock = FOREIGN;
    store.entries[1].packed = 9;
    const Store shut = after_preparing(store, {log_only(updating(0, object(7))), log_only(deleting(1))}, 3);
    stops_everywhere(shut, Led::by_calls, "the packed table of others");
    World other(shut);
    other.gives(call::commit(0, ALL), 0, {0});
    other.gives(call::place_lock_on_packed(), 20);
}

// A transaction without rows has no writes, so that even an allowance of 0 is enough.
static void test_no_rows()
{
    for (uint8_t mode : {1, 2, 3})
        for (uint64_t committer : {0, 1, 65535})
            for (uint64_t allowance : {uint64_t(0), uint64_t(1), ALL}) {
                World world(busy());
                world.gives(call::prepare(write_list({}), mode), 0, {0});
                world.gives(call::commit(committer, allowance), 0, {0});
                world.gives(call::commit(committer, allowance), 15);
                check(encode(world.store()) == encode(busy()), "nothing is changed");
            }
}

// No transaction has more writes than this one: two for each of 160 rows, and one of the packed table. No list leads there.
static void test_most_writes()
{
    Store store = plain(160);
    store.mode = 3;
    for (uint16_t n = 0; n < 160; n++) {
        store.entries[n].loose = object(5);
        store.entries[n].packed = 6;
        bool updates = n % 2 == 0;
        store.rows.push_back(found(updates ? update(n, object(7)) : deletion(n), object(5)));
        if (!updates)
            store.lines.push_back({n, 0, 5, 1, 0});
    }
    take_locks(store);
    for (uint64_t allowance : {uint64_t(0), uint64_t(80), uint64_t(160), uint64_t(161), uint64_t(162), uint64_t(320)}) {
        World world(store);
        world.gives(call::commit(1, allowance), 17, {allowance});
        if (allowance < 162)
            world.gives(call::read_name(0), 0, {OBJECT, 5, PLACE_LOOSE});
        else
            world.gives(call::read_name(0), 0, {OBJECT, 7, PLACE_PACKED});
    }
    World world(store);
    world.gives(call::commit(1, 321), 0, {321});
    world.gives(call::read_name(158), 0, {OBJECT, 7, PLACE_PACKED});
    world.gives(call::read_name(159), 0, {NONE, 0, PLACE_ABSENT});
}

void test_commit_stops()
{
    test_refused();
    test_allowances();
    test_no_committer();
    test_after();
    test_foreign();
    test_no_rows();
    test_most_writes();
}
