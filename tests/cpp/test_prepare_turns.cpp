// R2 and R3: the packed table's lock and whether it is opened, the locks of names, and what each row expects.
#include "preparing.h"
#include "tests.h"

// ---- the table of what is expected

// What is there: names 0 and 1 are the row's and another, and the row may be of the log only.
struct There {
    const char *what;
    Value loose;
    uint64_t packed;
    bool log_only;
    Value read; // what the row finds, and where
    uint64_t place;
};

static const There THERE[] = {
    {"nothing", {}, 0, false, {}, PLACE_ABSENT},
    {"nothing, for the log only", {}, 0, true, {}, PLACE_ABSENT},
    {"a broken value", {BROKEN, 0}, 0, false, {}, PLACE_ABSENT_BEHIND_BROKEN},
    {"an object", {OBJECT, 5}, 0, false, {OBJECT, 5}, PLACE_LOOSE},
    {"an object, for the log only", {OBJECT, 5}, 0, true, {OBJECT, 5}, PLACE_LOOSE},
    {"a link", {LINK, 1}, 0, false, {LINK, 1}, PLACE_LOOSE},
    {"a packed object", {}, 5, false, {OBJECT, 5}, PLACE_PACKED},
    {"a packed object that is not seen", {}, 5, true, {}, PLACE_ABSENT},
    {"a packed object behind a broken value", {BROKEN, 0}, 5, false, {OBJECT, 5}, PLACE_PACKED_BEHIND_BROKEN},
    {"a packed object behind a broken value, not seen", {BROKEN, 0}, 5, true, {}, PLACE_ABSENT_BEHIND_BROKEN},
    {"an object before a packed one", {OBJECT, 5}, 6, false, {OBJECT, 5}, PLACE_LOOSE},
    {"a link before a packed object", {LINK, 1}, 5, false, {LINK, 1}, PLACE_LOOSE},
};

// The object 1 and the link to name 1 are not the same, and neither are objects that end alike.
static const Value TARGETS[] = {{OBJECT, 5}, {OBJECT, 1}, {OBJECT, 5 + (uint64_t(1) << 32)}, {LINK, 1}, {LINK, 0}};

static std::vector<Edit> edits_that_expect(uint8_t expected, const Value &target)
{
    std::vector<Edit> edits = {expecting(deleting(0), expected, target)};
    for (const Value &value : TARGETS)
        edits.push_back(expecting(updating(0, value), expected, target));
    return edits;
}

// The numbers of the table, by what is expected: for a delete and an update of nothing, of what matches or, with 2, is there
// already, and of something else.
struct Verdicts {
    uint32_t delete_nothing, update_nothing, delete_same, update_same, delete_other, update_other;
};

static const Verdicts TABLE[] = {
    {0, 0, 0, 0, 0, 0},
    {9, 11, 0, 0, 0, 0},
    {13, 0, 13, 0, 13, 10},
    {9, 11, 0, 0, 12, 12},
    {0, 0, 0, 0, 12, 12},
};

static uint32_t verdict(const Edit &edit, const Value &there)
{
    const Verdicts &row = TABLE[edit.expected];
    bool deletes = edit.kind == DELETE;
    if (there.kind == NONE)
        return deletes ? row.delete_nothing : row.update_nothing;
    if (there == (edit.expected == MUST_NOT_EXIST ? edit.new_target : edit.expected_target))
        return deletes ? row.delete_same : row.update_same;
    return deletes ? row.delete_other : row.update_other;
}

static std::vector<uint64_t> places_of(uint32_t number, const Edit &edit, const Value &there)
{
    const Value &expected = edit.expected_target, &next = edit.new_target;
    switch (number) {
    case 0:
        return {1};
    case 10:
        return {0, there.kind, there.number, next.kind, next.number};
    case 11:
        return edit.expected == MUST_EXIST ? std::vector<uint64_t>{0, OBJECT, 0}
                                           : std::vector<uint64_t>{0, expected.kind, expected.number};
    case 12:
        return {0, expected.kind, expected.number, there.kind, there.number};
    default:
        return {0};
    }
}

// The edit alone. If it is prepared, its row found what is there, or still expects what it did.
static void judge(World &world, Edit edit, const There &there)
{
    edit.log_only = there.log_only;
    uint32_t number = verdict(edit, there.read);
    world.gives(call::prepare(write_list({edit}), 1), number, places_of(number, edit, there.read));
    if (number != 0)
        return;
    const Row &row = world.store().rows[0];
    bool nothing = there.read.kind == NONE;
    check(nothing ? row.expected == edit.expected : row.expected == MUST_EXIST_AND_MATCH, std::string(there.what) + ": expected");
    check(row.expected_target == (nothing ? edit.expected_target : there.read), std::string(there.what) + ": its target");
    world.agrees(call::read_row(0));
    check(world.place(13) == there.place, std::string(there.what) + ": its place");
    world.gives(call::rollback(), 0, {1});
}

static void test_table()
{
    for (const There &there : THERE) {
        Store store = plain(2);
        store.entries[0].loose = there.loose;
        store.entries[0].packed = there.packed;
        World world(store);
        for (uint8_t expected : {ANY, MUST_EXIST, MUST_NOT_EXIST})
            for (const Edit &edit : edits_that_expect(expected, {}))
                judge(world, edit, there);
        for (uint8_t expected : {MUST_EXIST_AND_MATCH, EXISTING_MUST_MATCH})
            for (const Value &target : TARGETS)
                for (const Edit &edit : edits_that_expect(expected, target))
                    judge(world, edit, there);
    }
}

// Each refusal with its places, once with numbers that fill them.
static void test_refusals()
{
    const uint64_t large = 0x0102030405060708, larger = ~uint64_t(0);
    Store store = plain(256);
    store.entries[200].loose = object(large);
    store.entries[201].loose = link(255);
    refuses(store, {expecting(deleting(199), MUST_EXIST)}, 1, 9, {199});
    refuses(store, {expecting(deleting(199), MUST_EXIST_AND_MATCH, object(large))}, 1, 9, {199});
    refuses(store, {expecting(updating(200, object(larger)), MUST_NOT_EXIST)}, 1, 10, {200, OBJECT, large, OBJECT, larger});
    refuses(store, {expecting(updating(201, link(254)), MUST_NOT_EXIST)}, 1, 10, {201, LINK, 255, LINK, 254});
    refuses(store, {expecting(updating(201, object(255)), MUST_NOT_EXIST)}, 1, 10, {201, LINK, 255, OBJECT, 255});
    refuses(store, {expecting(updating(199, object(larger)), MUST_EXIST)}, 1, 11, {199, OBJECT, 0});
    refuses(store, {expecting(updating(199, object(1)), MUST_EXIST_AND_MATCH, object(larger))}, 1, 11, {199, OBJECT, larger});
    refuses(store, {expecting(updating(199, object(1)), MUST_EXIST_AND_MATCH, link(255))}, 1, 11, {199, LINK, 255});
    refuses(store, {expecting(updating(200, object(1)), EXISTING_MUST_MATCH, object(larger))}, 1, 12,
            {200, OBJECT, larger, OBJECT, large});
    refuses(store, {expecting(deleting(201), MUST_EXIST_AND_MATCH, link(254))}, 1, 12, {201, LINK, 254, LINK, 255});
    refuses(store, {expecting(deleting(255), MUST_NOT_EXIST)}, 1, 13, {255});
    store.entries[255].lock = FOREIGN;
    refuses(store, {expecting(deleting(255), MUST_NOT_EXIST)}, 1, 8, {255});
}

// ---- the packed table

// A foreign lock on it stands in the way of rows that count, even where it would not be opened, and of no others.
static void test_packed_lock()
{
    for (uint8_t mode : {1, 2, 3})
        for (uint64_t packed : {0, 3}) {
            Store store = marked();
            store.entries.push_back({"refs/bisect/bad", {}, 0, FREE});
            store.entries.push_back({"refs/heads/packed", {}, packed, FREE});
            store.packed_lock = FOREIGN;
            const Row aisle = update(1, object(7)), head = found(update(0, object(7)), link(1));
            for (const Edit &counts : {updating(1, object(7)), updating(1, link(0)), deleting(1)}) {
                refuses(store, {counts}, mode, 7);
                refuses(store, {deleting(2), log_only(deleting(0)), counts}, mode, 7);
                prepares(store, {log_only(counts)}, mode,
                         {log_only(counts.kind == UPDATE ? update(1, counts.new_target) : deletion(1))});
            }
            refuses(store, {through(updating(0, object(7)))}, mode, 7); // the child counts
            prepares(store, {updating(0, object(7)), deleting(2)}, mode, {head, deletion(2)});
            prepares(store, {log_only(through(updating(0, object(7))))}, mode, {log_only(head), child_of(0, log_only(aisle))});
            prepares(store, {}, mode, {});

            // 7 comes before the locks of names, and before what is expected.
            for (Entry &entry : store.entries)
                entry.lock = FOREIGN;
            refuses(store, {expecting(deleting(0), MUST_NOT_EXIST), deleting(1)}, mode, 7);
            refuses(store, {expecting(deleting(0), MUST_NOT_EXIST), log_only(deleting(1))}, mode, 8, {0});
        }
}

// Which edits open the table in each mode, with and without a packed value somewhere.
static void test_opened()
{
    struct Case {
        const char *what;
        std::vector<Edit> edits;
        bool counts, packs; // a row counts; one of these updates to an object
    };
    const Case cases[] = {
        {"no edits", {}, false, false},
        {"an update to an object", {updating(1, object(7))}, true, true},
        {"an update to a link", {updating(1, link(0))}, true, false},
        {"a delete", {deleting(1)}, true, false},
        {"log-only edits", {log_only(updating(1, object(7))), log_only(deleting(3))}, false, false},
        {"unpackable names", {updating(0, object(7)), deleting(2), updating(4, object(1)), updating(5, object(1))}, false, false},
        {"a name like an unpackable one", {updating(6, object(7))}, true, true},
        {"an unpackable object and a packable link", {updating(0, object(7)), updating(1, link(0))}, true, false},
        {"a log-only object and a delete", {log_only(updating(1, object(7))), deleting(3)}, true, false},
        {"a child", {through(updating(0, object(7)))}, true, true},
        {"a log-only child", {log_only(through(updating(0, object(7))))}, false, false},
        {"a deleted child", {through(deleting(0))}, true, false},
        {"the last of many", {deleting(0), log_only(deleting(1)), deleting(2), updating(3, object(7))}, true, true},
    };
    for (const Case &c : cases)
        for (uint8_t mode : {1, 2, 3})
            for (uint64_t packed : {0, 9}) {
                Store store = marked();
                for (const char *name : {"refs/bisect/bad", "refs/heads/b", "refs/worktree/c", "refs/rewritten/d", "refs/bisect"})
                    store.entries.push_back({name, {}, 0, FREE});
                store.entries.push_back({"refs/tags/packed", object(1), packed, FOREIGN}); // no edit has it
                World world(store);
                bool opened = (c.packs && mode >= 2) || (c.counts && packed != 0);
                Answer given = world.agrees(call::prepare(write_list(c.edits), mode));
                check(given.number == 0, std::string(c.what) + ": is prepared");
                check(world.store().packed_lock == (opened ? OURS : FREE), std::string(c.what) + ": the packed table's lock");
                world.gives(call::place_lock_on_packed(), opened ? 20 : 0);
                world.gives(call::lift_lock_of_packed(), opened ? 20 : 0);
                world.gives(call::rollback(), 0, {given.places[0]});
                check(encode(world.store()) == encode(store), std::string(c.what) + ": rolled back");
            }
}

// Where it is not opened, packed values are not seen. Another row that counts opens it for all.
static void test_unseen()
{
    Store store = plain(4);
    store.entries[0].packed = 3;
    store.entries[1].packed = 4;
    store.entries[1].loose = {BROKEN, 0};
    const Edit blind = expecting(log_only(updating(0, object(7))), MUST_EXIST);
    const Row row = log_only(update(0, object(7)));
    for (uint8_t mode : {1, 2, 3}) {
        refuses(store, {blind}, mode, 11, {0, OBJECT, 0});
        refuses(store, {expecting(blind, MUST_EXIST_AND_MATCH, object(3))}, mode, 11, {0, OBJECT, 3});
        refuses(store, {log_only(expecting(deleting(1), MUST_EXIST))}, mode, 9, {1});
        prepares(store, {expecting(blind, ANY)}, mode, {row});
        prepares(store, {expecting(blind, MUST_NOT_EXIST)}, mode, {expecting(row, MUST_NOT_EXIST)});
        prepares(store, {expecting(blind, EXISTING_MUST_MATCH, object(99))}, mode,
                 {expecting(row, EXISTING_MUST_MATCH, object(99))});
        // Before it or after it.
        prepares(store, {blind, deleting(2)}, mode, {found(row, object(3)), deletion(2)});
        prepares(store, {deleting(2), blind}, mode, {deletion(2), found(row, object(3))});
        prepares(store, {log_only(deleting(1)), updating(2, link(0))}, mode,
                 {log_only(found(deletion(1), object(4))), update(2, link(0))});
        refuses(store, {expecting(blind, EXISTING_MUST_MATCH, object(99)), deleting(2)}, mode, 12, {0, OBJECT, 99, OBJECT, 3});
    }
}

// ---- locks of names, and whose turn it is

// 8 names the edit from which the row came.
static void test_locked()
{
    for (size_t hops = 0; hops <= 4; hops++)
        for (size_t held = 0; held <= hops; held++) {
            Store store = plain(7);
            for (size_t n = 0; n < hops; n++)
                store.entries[6 - n].loose = link(5 - n); // from name 6 down
            store.entries[6 - held].lock = FOREIGN;
            for (uint8_t mode : {1, 3}) {
                refuses(store, {through(updating(6, object(7)))}, mode, 8, {6});
                refuses(store, {deleting(0), through(deleting(6))}, mode, 8, {6});
                refuses(store, {log_only(through(deleting(6))), deleting(0)}, mode, 8, {6});
            }
        }
    // A lock that would be dropped again is asked for all the same; one that no row asks for stands in no way.
    Store store = plain(3);
    store.entries[0].loose = object(7);
    store.entries[0].lock = store.entries[2].lock = FOREIGN;
    refuses(store, {updating(0, object(7))}, 1, 8, {0});
    refuses(store, {log_only(updating(0, object(7)))}, 1, 8, {0});
    prepares(store, {updating(1, object(7))}, 1, {update(1, object(7))});
    prepares(store, {updating(1, link(0))}, 1, {update(1, link(0))});
}

// Rows take turns: in a row the lock goes first, and what the row expects goes before the next row's lock.
static void test_turns()
{
    Store store = plain(4);
    store.entries[1].lock = FOREIGN;
    store.entries[3].loose = object(5);
    const Edit nine = expecting(deleting(0), MUST_EXIST), eleven = expecting(updating(0, object(1)), MUST_EXIST);
    const Edit ten = expecting(updating(3, object(6)), MUST_NOT_EXIST), thirteen = expecting(deleting(2), MUST_NOT_EXIST);
    const Edit twelve = expecting(deleting(3), MUST_EXIST_AND_MATCH, object(6)), locked = deleting(1);
    for (uint8_t expected : {MUST_EXIST, MUST_NOT_EXIST})
        refuses(store, {expecting(locked, expected)}, 1, 8, {1});
    refuses(store, {expecting(locked, MUST_EXIST_AND_MATCH, object(5))}, 1, 8, {1});
    refuses(store, {expecting(updating(1, object(5)), MUST_EXIST)}, 1, 8, {1});
    const std::pair<Edit, Answer> faults[] = {
        {locked, answer(8, {1})},
        {nine, answer(9, {0})},
        {ten, answer(10, {3, OBJECT, 5, OBJECT, 6})},
        {eleven, answer(11, {0, OBJECT, 0})},
        {twelve, answer(12, {3, OBJECT, 6, OBJECT, 5})},
        {thirteen, answer(13, {2})},
    };
    World world(store);
    for (const auto &[first, first_answer] : faults)
        for (const auto &[second, second_answer] : faults) {
            if (first.name == second.name)
                continue;
            Answer given = world.agrees(call::prepare(write_list({first, second}), 1));
            check(given == first_answer, "the first row at fault decides");
            given = world.agrees(call::prepare(write_list({second, first}), 1));
            check(given == second_answer, "the first row at fault decides");
        }
    // A log that is full comes last.
    store.setting = 2;
    store.lines.assign(1024, {0, 0, 1, 1, 0});
    refuses(store, {updating(3, object(9)), nine}, 1, 9, {0});
    refuses(store, {updating(3, object(9)), locked}, 1, 8, {1});
    refuses(store, {updating(3, object(9)), deleting(0)}, 1, 14);
}

void test_prepare_turns()
{
    test_table();
    test_refusals();
    test_packed_lock();
    test_opened();
    test_unseen();
    test_locked();
    test_turns();
}
