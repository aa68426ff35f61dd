// The marked examples P1 to P11, whole: what is prepared, each write of its commit, and what is read then. And the examples at the
// edges of the limits, which are run only.
#include "committing.h"
#include "tests.h"

#include <algorithm>

using namespace writes;

static Edit through_head(const Value &target) { return with_message(through(updating(0, target)), 3); }

static Row with_message(Row row)
{
    row.message = 3;
    return row;
}

static Row head_row(uint64_t number, uint64_t leaf_previous)
{
    return with_message(log_only(with_leaf(found(update(0, object(number)), link(1)), leaf_previous)));
}

static Row aisle_row(uint64_t number) { return child_of(0, with_message(update(1, object(number)))); }

// P1: an update through HEAD's link. P2: then another object. P3: and the same one again.
static void test_updates()
{
    Store store = marked();
    prepares(store, {through_head(object(7))}, 1, {head_row(7, 0), aisle_row(7)});
    store = commits(store, {through_head(object(7))}, 1, {line(0, 0, 7, 3), line(1, 0, 7, 3), loose(1, object(7))});

    prepares(store, {through_head(object(9))}, 1, {head_row(9, 7), found(aisle_row(9), object(7))});
    store = commits(store, {through_head(object(9))}, 1, {line(0, 7, 9, 3), line(1, 7, 9, 3), loose(1, object(9))});

    prepares(store, {through_head(object(9))}, 1, {head_row(9, 9), found(aisle_row(9), object(9))});
    const Store same = commits(store, {through_head(object(9))}, 1, {});
    check(encode(same) == encode(store), "P3 changes nothing");
    World world(same);
    for (uint64_t name : {0, 1}) {
        world.gives(call::read_line(name, 0), 0, {0, 7, 1, 3});
        world.gives(call::read_line(name, 1), 0, {7, 9, 1, 3});
        world.gives(call::read_line(name, 2), 22);
    }
    world.gives(call::read_name(0), 0, {LINK, 1, PLACE_LOOSE});
    world.gives(call::read_name(1), 0, {OBJECT, 9, PLACE_LOOSE});
}

// A refused list prepares nothing, so there is nothing to commit.
static void refuses_to_commit(const Store &store, const Edit &edit, uint32_t number, const std::vector<uint64_t> &places = {},
                              AT_CALLER)
{
    World world(store);
    world.gives(call::prepare(write_list({edit}), 1), number, places, at);
    world.gives(call::commit(1, ~uint64_t(0)), 15, {}, at);
}

// P4: a delete through HEAD's link that expects the object behind it is judged by the link first.
static void test_delete()
{
    Store store = marked();
    store.entries[1].loose = object(9);
    refuses_to_commit(store, expecting(through(deleting(0)), MUST_EXIST_AND_MATCH, object(9)), 12, {0, OBJECT, 9, LINK, 1});
    prepares(store, {through(deleting(0))}, 1,
             {log_only(with_leaf(found(deletion(0), link(1)), 9)), child_of(0, found(deletion(1), object(9)))});
    commits(store, {through(deleting(0))}, 1, {no_loose(1)});
}

// P5: four hops. P6: five. P7: a link to itself.
static void test_hops()
{
    const Edit edit = through(updating(0, object(7)));
    auto row = [](uint16_t name) { return update(name, object(7)); };
    auto on_the_way = [&](uint16_t name) { return log_only(with_leaf(found(row(name), link(name + 1)), 5)); };
    prepares(chain(4, object(5)), {edit}, 1,
             {on_the_way(0), child_of(0, on_the_way(1)), child_of(1, on_the_way(2)), child_of(2, on_the_way(3)),
              child_of(3, found(row(4), object(5)))});
    commits(chain(4, object(5)), {edit}, 1,
            {line(0, 5, 7), line(1, 5, 7), line(2, 5, 7), line(3, 5, 7), line(4, 5, 7), loose(4, object(7))});
    refuses_to_commit(chain(5, object(5)), edit, 4);
    Store store = marked();
    store.entries[0].loose = link(0);
    refuses_to_commit(store, edit, 4);
}

// P8: an update that expects nothing, where what is there is its target already. P9: no edits.
static void test_passes()
{
    Store store = marked();
    store.entries[1].loose = object(7);
    const Edit edit = expecting(updating(1, object(7)), MUST_NOT_EXIST);
    prepares(store, {edit}, 1, {found(update(1, object(7)), object(7))});
    commits(store, {edit}, 1, {});
    store.entries[1].loose = object(8);
    refuses_to_commit(store, edit, 10, {1, OBJECT, 8, OBJECT, 7});
    prepares(marked(), {}, 1, {});
    commits(marked(), {}, 1, {});
}

// P10: a name with both values is deleted. The packed one goes first, so it never reads that one.
static void test_both_values()
{
    Store store = marked();
    store.entries[1].loose = object(5);
    store.entries[1].packed = 3;
    prepares(store, {deleting(1)}, 1, {found(deletion(1), object(5))});
    commits(store, {deleting(1)}, 1, {packed({{1, 0}}), no_loose(1)});
    for (uint64_t allowance : {0, 1, 2}) {
        World world(store);
        world.gives(call::prepare(write_list({deleting(1)}), 1), 0, {1});
        world.gives(call::read_name(1), 0, {OBJECT, 5, PLACE_LOOSE});
        world.gives(call::commit(0, allowance), allowance == 2 ? 0 : 17, {allowance});
        if (allowance == 2)
            world.gives(call::read_name(1), 0, {NONE, 0, PLACE_ABSENT});
        else
            world.gives(call::read_name(1), 0, {OBJECT, 5, PLACE_LOOSE});
    }
}

// P11: a log-only update alone, of a name that has a packed value only.
static void test_packed_only()
{
    Store store = marked();
    store.entries[1].packed = 3;
    refuses_to_commit(store, expecting(log_only(updating(1, object(7))), MUST_EXIST), 11, {1, OBJECT, 0});
    const Edit edit = expecting(updating(1, object(7)), MUST_EXIST);
    prepares(store, {edit}, 1, {found(update(1, object(7)), object(3))});
    commits(store, {edit}, 1, {line(1, 3, 7), loose(1, object(7))});
}

// ---- at the edges

// A list of 32 edits is committed, 33 are refused.
static void test_longest_list()
{
    const Store store = plain(33);
    std::vector<Edit> edits;
    std::vector<Write> writes;
    for (uint16_t n = 0; n < 32; n++) {
        edits.push_back(with_message(updating(n, object(n + 1)), n));
        writes.push_back(line(n, 0, n + 1u, n));
        writes.push_back(loose(n, object(n + 1u)));
    }
    commits(store, edits, 1, writes, 65535);
    edits.push_back(updating(32, object(33)));
    refuses(store, edits, 1, 2);
}

// All 160 rows: 32 edits through four links each. Every row has a line, and the last of each chain a value.
static void test_most_rows()
{
    Store store = plain(160);
    for (uint16_t n = 0; n < 128; n++)
        store.entries[n].loose = link(n + 32u);
    std::vector<Edit> edits;
    for (uint16_t n = 0; n < 32; n++)
        edits.push_back(through(updating(n, object(n + 1u))));
    for (uint64_t allowance : {uint64_t(0), uint64_t(127), uint64_t(128), uint64_t(129), uint64_t(191), ~uint64_t(0)}) {
        World world(store);
        world.gives(call::prepare(write_list(edits), 1), 0, {160});
        world.gives(call::commit(256, allowance), allowance < 192 ? 17 : 0, {std::min(allowance, uint64_t(192))});
        if (allowance < 192)
            world.gives(call::read_name(159), 0, {NONE, 0, PLACE_ABSENT});
        else
            world.gives(call::read_name(159), 0, {OBJECT, 32, PLACE_LOOSE});
    }
}

// Moves that fill the log: line 1,024 is written, the 1,025th is refused.
static void test_last_line()
{
    Store store = marked();
    store.entries[1].loose = object(1);
    store.lines.assign(MOST_LINES - 3, {0, 1, 2, 3, 4});
    World world(store);
    const uint64_t all = ~uint64_t(0);
    world.gives(call::prepare(write_list({through_head(object(7))}), 1), 0, {2});
    world.gives(call::commit(1, all), 0, {3});
    world.gives(call::prepare(write_list({through_head(object(9))}), 1), 14);
    world.gives(call::prepare(write_list({updating(1, object(9))}), 1), 0, {1});
    world.gives(call::commit(1, all), 0, {2});
    check(world.store().lines.size() == MOST_LINES, "the log is full");
    world.gives(call::read_line(0, MOST_LINES - 3), 0, {1, 7, 1, 3});
    world.gives(call::read_line(1, 1), 0, {7, 9, 1, 0});
    world.gives(call::prepare(write_list({updating(1, object(7))}), 1), 14);
    world.gives(call::read_name(1), 0, {OBJECT, 9, PLACE_LOOSE});
}

// A name of 64 bytes is moved like any other, one of 65 is none. The 256th name is moved, and number 256 is no name.
static void test_last_name()
{
    World world(plain(255));
    const std::string longest = "refs/heads/" + std::string(53, 'x');
    world.gives(call::add_name(longest + "x"), 18);
    world.gives(call::add_name(longest), 0, {255});
    world.gives(call::add_name("HEAD"), 19);
    world.gives(call::prepare(write_list({updating(256, object(7))}), 2), 3, {256});
    world.gives(call::prepare(write_list({updating(255, link(256))}), 2), 3, {256});
    world.gives(call::prepare(write_list({updating(255, object(7))}), 2), 0, {1});
    world.gives(call::commit(1, 3), 0, {3});
    world.gives(call::read_name(255), 0, {OBJECT, 7, PLACE_LOOSE});
    world.gives(call::read_line(255, 0), 0, {0, 7, 1, 0});
    world.gives(call::read_name(256), 3, {256});
    world.gives(call::load_loose(255, BROKEN, 0), 0);
    world.gives(call::read_name(255), 0, {OBJECT, 7, PLACE_PACKED_BEHIND_BROKEN});
}

void test_marked()
{
    test_updates();
    test_delete();
    test_hops();
    test_passes();
    test_both_values();
    test_packed_only();
    test_longest_list();
    test_most_rows();
    test_last_line();
    test_last_name();
}
