// R4 and R5: the locks that rows keep, what a chain's ancestors learn of its last row, and what others may do while a transaction
// is prepared.
#include "preparing.h"
#include "tests.h"

// ---- R4

// Each kind of row on each kind of name, in each mode. A lock is dropped only by an update to an object that is there already,
// and not even then if it is direct.
static void test_kept()
{
    const Value loose[] = {{}, {BROKEN, 0}, object(5), object(1), link(1)};
    const std::pair<const char *, bool> names[] = {
        {"refs/heads/a", true}, {"refs/bisect", true}, {"refs/bisect/a", false}, {"refs/worktree/a", false}, {"HEAD", false},
    };
    for (const auto &[name, packable] : names)
        for (const Value &value : loose) {
            Store store = plain(2);
            store.entries[0].name = name;
            store.entries[0].loose = value;
            World world(store);
            for (const Edit &edit : {updating(0, object(5)), updating(0, link(1)), updating(0, object(1)), deleting(0)})
                for (uint8_t only_log : {0, 1})
                    for (uint8_t mode : {1, 2, 3}) {
                        Edit made = edit;
                        made.log_only = only_log;
                        bool unchanged = edit.kind == UPDATE && edit.new_target.kind == OBJECT && edit.new_target == value;
                        bool kept = !unchanged || (mode == 3 && packable);
                        world.gives(call::prepare(write_list({made}), mode), 0, {1});
                        check(world.store().entries[0].lock == (kept ? OURS : FREE), "the lock that is kept or dropped");
                        world.gives(call::place_lock_on_name(0), kept ? 20 : 0);
                        world.gives(call::lift_lock_of_name(0), kept ? 20 : 0);
                        world.gives(call::rollback(), 0, {1});
                        check(encode(world.store()) == encode(store), "rolled back");
                    }
        }
}

// What is there may be packed, and what is packed may not be seen: then nothing is there, which differs from everything.
static void test_kept_by_packed()
{
    Store store = plain(2);
    store.entries[0].packed = 5;
    for (uint8_t mode : {1, 2, 3}) {
        World world(store);
        world.gives(call::prepare(write_list({updating(0, object(5))}), mode), 0, {1});
        check(world.store().entries[0].lock == (mode == 3 ? OURS : FREE), "the packed value is the new one");
        world.gives(call::rollback(), 0, {1});
        world.gives(call::prepare(write_list({log_only(updating(0, object(5)))}), mode), 0, {1});
        check(world.store().entries[0].lock == OURS, "the packed value is not seen");
        world.gives(call::rollback(), 0, {1});
        world.gives(call::prepare(write_list({log_only(updating(0, object(5))), deleting(1)}), mode), 0, {2});
        check(world.store().entries[0].lock == (mode == 3 ? OURS : FREE), "the packed value is seen again");
    }
}

// In a chain each row keeps its own lock or drops it: a parent found a link, which no object equals.
static void test_kept_in_chains()
{
    for (uint8_t mode : {1, 3}) {
        World world(chain(3, object(5)));
        world.gives(call::prepare(write_list({through(updating(0, object(5)))}), mode), 0, {4});
        for (size_t n = 0; n < 4; n++)
            check(world.store().entries[n].lock == (n < 3 || mode == 3 ? OURS : FREE), "a chain's locks");
        world.gives(call::rollback(), 0, {4});
    }
}

// ---- R5

// A leaf's object goes to all its ancestors, and to nobody else.
static void test_leaf_previous()
{
    Store store = plain(8);
    store.entries[0].loose = link(1); // 0 to 1 to 2, which has an object
    store.entries[1].loose = link(2);
    store.entries[2].loose = object(22);
    store.entries[3].loose = link(4); // 3 to 4, which has nothing
    store.entries[5].loose = link(6); // 5 to 6, which has a packed value only
    store.entries[6].packed = 66;
    store.entries[7].loose = object(77);
    auto edit = [](uint16_t name) { return through(updating(name, object(9))); };
    auto row = [](uint16_t name) { return update(name, object(9)); };
    auto parent = [&](uint16_t name, uint16_t to, uint64_t leaf) {
        return log_only(with_leaf(found(row(name), link(to)), leaf));
    };
    for (uint8_t mode : {1, 2, 3})
        prepares(store, {edit(0), edit(3), edit(5), edit(7)}, mode,
                 {parent(0, 1, 22), parent(3, 4, 0), parent(5, 6, 66), found(row(7), object(77)),
                  child_of(0, parent(1, 2, 22)), child_of(1, row(4)), child_of(2, found(row(6), object(66))),
                  child_of(4, found(row(2), object(22)))});

    // Expected 4 with an object hands that object up where nothing is there, and what is there where something is.
    const Row four = expecting(row(4), EXISTING_MUST_MATCH, object(44));
    const Row four_link = expecting(row(4), EXISTING_MUST_MATCH, link(7));
    prepares(store, {expecting(edit(3), EXISTING_MUST_MATCH, object(44))}, 1, {parent(3, 4, 44), child_of(0, four)});
    prepares(store, {expecting(edit(3), EXISTING_MUST_MATCH, link(7))}, 1, {parent(3, 4, 0), child_of(0, four_link)});
    prepares(store, {expecting(edit(5), EXISTING_MUST_MATCH, object(66))}, 1,
             {parent(5, 6, 66), child_of(0, found(row(6), object(66)))});
    // An edit without a parent hands nothing to anyone.
    prepares(store, {edit(7), expecting(updating(4, object(9)), EXISTING_MUST_MATCH, object(44))}, 1,
             {found(row(7), object(77)), four});
    // A packed value that is not seen is not handed up either.
    prepares(store, {log_only(edit(5))}, 1, {parent(5, 6, 0), child_of(0, log_only(row(6)))});
    // Every bit of it.
    store.entries[2].loose = object(~uint64_t(0) - 1);
    prepares(store, {through(deleting(0))}, 1,
             {log_only(with_leaf(found(deletion(0), link(1)), ~uint64_t(0) - 1)),
              child_of(0, log_only(with_leaf(found(deletion(1), link(2)), ~uint64_t(0) - 1))),
              child_of(1, found(deletion(2), object(~uint64_t(0) - 1)))});
}

// ---- while it is prepared

// Nothing that the call was not asked for is changed: values, log and foreign locks stay, and so do names that no row has.
static void test_untouched()
{
    Store store = busy();
    store.packed_lock = FREE;
    for (uint8_t mode : {1, 2, 3}) {
        World world(store);
        world.gives(call::prepare(write_list({through(updating(0, object(8))), deleting(3)}), mode), 0, {3});
        Store after = world.store();
        after.rows.clear();
        after.mode = 0;
        after.packed_lock = FREE;
        for (uint64_t name : {0, 1, 3}) {
            check(after.entries[name].lock == OURS, "a row's lock");
            after.entries[name].lock = FREE;
        }
        check(encode(after) == encode(store), "no more than rows, mode and locks");
        world.gives(call::read_name(1), 0, {OBJECT, 7, PLACE_LOOSE});
        world.gives(call::read_line(0, 2), 0, {7, ~uint64_t(0), 9, 9});
        world.gives(call::read_line(0, 3), 22);
    }
}

static void test_while_prepared()
{
    Store store = marked();
    store.entries[1].loose = object(7);
    store.entries.push_back({"refs/tags/spring", {}, 9, FREE});
    World world(store);
    const std::string list = write_list({through(updating(0, object(7))), updating(2, object(9))});
    world.gives(call::prepare(list, 1), 0, {3}); // HEAD's lock is kept, the other two are dropped
    world.gives(call::prepare(list, 1), 15);
    world.gives(call::prepare(write_list({}), 2), 15);
    world.gives(call::load_loose(0, NONE, 0), 15);
    world.gives(call::load_packed(1, NONE, 0), 15);
    world.gives(call::place_lock_on_name(0), 20);
    world.gives(call::place_lock_on_packed(), 20);
    world.gives(call::place_lock_on_name(1), 0);
    world.gives(call::place_lock_on_name(2), 0);
    world.gives(call::lift_lock_of_name(2), 0);
    world.gives(call::add_name("refs/heads/new"), 0, {3});
    world.gives(call::place_lock_on_name(3), 0);
    world.gives(call::read_row(1), 0, {2, 1, 0, 0, 0, 3, OBJECT, 9, OBJECT, 9, 0, 0, 0, PLACE_PACKED});
    world.gives(call::read_row(2), 0, {1, 1, 0, 0, 0, 3, OBJECT, 7, OBJECT, 7, 1, 0, 0, PLACE_LOOSE});
    world.gives(call::read_row(0), 0, {0, 1, 1, 0, 0, 3, LINK, 1, OBJECT, 7, 0, 0, 7, PLACE_LOOSE});
    world.gives(call::rollback(), 0, {3});
    world.gives(call::prepare(list, 1), 8, {0}); // the child's lock went to another
    world.gives(call::lift_lock_of_name(1), 0);
    world.gives(call::prepare(list, 1), 0, {3});
    world.gives(call::start(2), 0);
    world.gives(call::prepare(write_list({}), 3), 0, {0});
    world.gives(call::prepare(write_list({}), 3), 15);
    world.gives(call::rollback(), 0, {0});
    world.gives(call::prepare(write_list({deleting(0)}), 3), 3, {0});
}

void test_prepare_kept()
{
    test_kept();
    test_kept_by_packed();
    test_kept_in_chains();
    test_leaf_previous();
    test_untouched();
    test_while_prepared();
}
