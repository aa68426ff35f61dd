// Regions with a transaction prepared: its rows, what it stands in the way of, and rolling it back.
#include "samples.h"
#include "tests.h"
#include "world.h"

static void test_rows()
{
    World world(prepared());
    world.gives(call::read_row(0), 0, {0, 1, 1, 1, 0x0203, 3, LINK, 1, OBJECT, 8, 0, 0, 7, PLACE_LOOSE});
    world.gives(call::read_row(1), 0, {1, 1, 0, 1, 0x0203, 3, OBJECT, 7, OBJECT, 8, 1, 0, 0, PLACE_LOOSE});
    world.gives(call::read_row(2), 0, {2, 1, 0, 0, 0, 3, OBJECT, 9, OBJECT, 9, 0, 0, 0, PLACE_PACKED});
    world.gives(call::read_row(3), 0,
                {3, 2, 0, 0, 0, 4, OBJECT, 0x0102030405060708, NONE, 0, 0, 0, 0, PLACE_ABSENT_BEHIND_BROKEN});
    for (uint64_t place : {4, 5, 159, 160, 161, 255, 1000000})
        world.gives(call::read_row(place), 22);
    for (uint64_t k = 0; k < 5; k++)
        for (uint64_t place : too_large(k))
            world.gives(call::read_row(place), 22);
}

// All the fields at once, each with a number of its own.
static void test_fields()
{
    Store s;
    s.setting = 2;
    s.mode = 2;
    for (size_t n = 0; n < 256; n++)
        s.entries.push_back({"refs/heads/" + std::to_string(n), {}, 0, FREE});
    Row first = update(254, link(253));
    first.message = 65535;
    first.leaf_previous = ~uint64_t(0);
    Row second = deletion(1);
    second.log_only = 1;
    second.expected = MUST_EXIST;
    second.has_parent = 1;
    second.parent = 0;
    second.leaf_previous = 0x2122232425262728;
    Row third = update(255, object(0x3132333435363738));
    third.force = 1;
    third.message = 0x4142;
    third.expected = EXISTING_MUST_MATCH;
    third.expected_target = link(252);
    third.has_parent = 1;
    third.parent = 1;
    third.leaf_previous = 0x5152535455565758;
    Row fourth = update(0, object(1));
    fourth.expected = MUST_NOT_EXIST;
    s.rows = {first, second, third, fourth};
    take_locks(s);
    World world(s);
    world.gives(call::read_row(0), 0, {254, 1, 0, 0, 65535, 0, NONE, 0, LINK, 253, 0, 0, ~uint64_t(0), PLACE_ABSENT});
    world.gives(call::read_row(1), 0, {1, 2, 1, 0, 0, 1, NONE, 0, NONE, 0, 1, 0, 0x2122232425262728, PLACE_ABSENT});
    world.gives(call::read_row(2), 0,
                {255, 1, 0, 1, 0x4142, 4, LINK, 252, OBJECT, 0x3132333435363738, 1, 1, 0x5152535455565758, PLACE_ABSENT});
    world.gives(call::read_row(3), 0, {0, 1, 0, 0, 0, 2, NONE, 0, OBJECT, 1, 0, 0, 0, PLACE_ABSENT});
    world.gives(call::read_row(4), 22);
    world.gives(call::rollback(), 0, {4});
    world.gives(call::read_row(0), 22);
}

// 160 rows, of them chains of five.
static void test_many_rows()
{
    Store s;
    s.mode = 3;
    for (size_t n = 0; n < 160; n++) {
        s.entries.push_back({"refs/heads/" + std::to_string(n), {}, 0, FREE});
        Row row = n % 2 ? update(uint16_t(159 - n), object(n)) : deletion(uint16_t(159 - n));
        row.has_parent = n >= 32;
        row.parent = uint8_t(n >= 32 ? n - 32 : 0);
        s.rows.push_back(row);
    }
    take_locks(s);
    World world(s);
    world.gives(call::read_row(0), 0, {159, 2, 0, 0, 0, 0, 0, 0, NONE, 0, 0, 0, 0, PLACE_ABSENT});
    world.gives(call::read_row(159), 0, {0, 1, 0, 0, 0, 0, 0, 0, OBJECT, 159, 1, 127, 0, PLACE_ABSENT});
    world.gives(call::read_row(158), 0, {1, 2, 0, 0, 0, 0, 0, 0, NONE, 0, 1, 126, 0, PLACE_ABSENT});
    world.gives(call::read_row(160), 22);
    world.gives(call::read_row(256), 22);
    world.gives(call::place_lock_on_name(0), 20);
    world.gives(call::rollback(), 0, {160});
    world.gives(call::rollback(), 0, {0});
    world.gives(call::read_row(0), 22);
    world.gives(call::place_lock_on_name(0), 0);
}

static void test_in_the_way()
{
    World world(prepared());
    // 15 comes before anything else that a load refuses.
    for (uint64_t name : {uint64_t(5), uint64_t(6), uint64_t(65536), ~uint64_t(0)})
        for (uint64_t kind : {0, 1, 2, 3, 4})
            for (uint64_t number : {uint64_t(0), uint64_t(1), uint64_t(65536)}) {
                world.gives(call::load_loose(name, kind, number), 15);
                world.gives(call::load_packed(name, kind, number), 15);
            }
    // Rows 0, 1 and 3 keep their locks, row 2 dropped its own and another took it. Names 4 and 5 have no row.
    for (uint64_t name : {0, 1, 3}) {
        world.gives(call::place_lock_on_name(name), 20);
        world.gives(call::lift_lock_of_name(name), 20);
    }
    world.gives(call::place_lock_on_name(2), 20);
    world.gives(call::lift_lock_of_name(2), 0);
    world.gives(call::lift_lock_of_name(2), 20);
    world.gives(call::place_lock_on_name(2), 0);
    world.gives(call::lift_lock_of_name(4), 0);
    world.gives(call::place_lock_on_name(4), 0);
    world.gives(call::place_lock_on_name(5), 0);
    world.gives(call::place_lock_on_name(6), 3, {6});
    world.gives(call::lift_lock_of_name(65536), 3, {65536});
    world.gives(call::place_lock_on_packed(), 20);
    world.gives(call::lift_lock_of_packed(), 20);
    // Reads go on.
    world.gives(call::read_name(0), 0, {LINK, 1, PLACE_LOOSE});
    world.gives(call::read_name(1), 0, {OBJECT, 7, PLACE_LOOSE});
    world.gives(call::read_name(2), 0, {OBJECT, 9, PLACE_PACKED});
    world.gives(call::read_name(3), 0, {NONE, 0, PLACE_ABSENT_BEHIND_BROKEN});
    world.gives(call::read_name(6), 3, {6});
    world.gives(call::read_row(1), 0, {1, 1, 0, 1, 0x0203, 3, OBJECT, 7, OBJECT, 8, 1, 0, 0, PLACE_LOOSE});
    world.gives(call::start(3), 2);
    // Rolled back: what was ours is free, what is foreign stays, and loads work again.
    world.gives(call::rollback(), 0, {4});
    world.gives(call::read_row(0), 22);
    for (uint64_t name : {0, 1, 3})
        check(world.store().entries[name].lock == FREE, "a lock that was ours is free");
    for (uint64_t name : {2, 4, 5})
        world.gives(call::place_lock_on_name(name), 20);
    for (uint64_t name : {0, 1, 3}) {
        world.gives(call::lift_lock_of_name(name), 20);
        world.gives(call::place_lock_on_name(name), 0);
    }
    world.gives(call::lift_lock_of_packed(), 20);
    world.gives(call::place_lock_on_packed(), 0);
    world.gives(call::load_loose(1, OBJECT, 8), 0);
    world.gives(call::load_packed(1, OBJECT, 8), 0);
    world.gives(call::rollback(), 0, {0});
}

// Which of four rows keep their locks, and whether the table is opened, in each mode.
static void test_modes()
{
    for (uint8_t mode : {1, 2, 3}) {
        bool direct = mode == 3, opened = mode >= 2;
        const bool kept[] = {direct, true, true, direct};
        World world(prepared_in(mode));
        for (uint64_t name = 0; name < 4; name++) {
            check(world.store().entries[name].lock == (kept[name] ? OURS : FREE), "the sample's lock");
            world.gives(call::lift_lock_of_name(name), 20);
            world.gives(call::place_lock_on_name(name), kept[name] ? 20 : 0);
        }
        check(world.store().packed_lock == (opened ? OURS : FREE), "the sample's packed lock");
        world.gives(call::lift_lock_of_packed(), 20);
        world.gives(call::place_lock_on_packed(), opened ? 20 : 0);
        world.gives(call::rollback(), 0, {4});
        for (uint64_t name = 0; name < 4; name++)
            world.gives(call::place_lock_on_name(name), kept[name] ? 0 : 20);
        world.gives(call::place_lock_on_packed(), opened ? 0 : 20);
    }
}

// Prepared with no rows: a transaction all the same.
static void test_no_rows()
{
    for (uint8_t mode : {1, 2, 3}) {
        Store s = busy();
        s.mode = mode;
        World world(s);
        world.gives(call::load_loose(1, OBJECT, 8), 15);
        world.gives(call::load_packed(1, NONE, 0), 15);
        world.gives(call::read_row(0), 22);
        world.gives(call::lift_lock_of_packed(), 0);
        world.gives(call::rollback(), 0, {0});
        world.gives(call::load_loose(1, OBJECT, 8), 0);
    }
}

static void test_nothing_prepared()
{
    World world(busy());
    for (uint64_t place : {uint64_t(0), uint64_t(1), uint64_t(159), uint64_t(65536), ~uint64_t(0)})
        world.gives(call::read_row(place), 22);
    world.gives(call::rollback(), 0, {0});
    world.gives(call::rollback(), 0, {0});
}

void test_prepared()
{
    test_rows();
    test_fields();
    test_many_rows();
    test_in_the_way();
    test_modes();
    test_no_rows();
    test_nothing_prepared();
}
