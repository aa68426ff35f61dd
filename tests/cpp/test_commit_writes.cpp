// W1 to W4: which writes a commit makes, each list of them stated by hand, and in which order.
#include "committing.h"
#include "tests.h"

using namespace writes;

static const Value BROKEN_VALUE = {BROKEN, 0};

// Names without a log of their own: a line is written only where a check says so.
static Store tags(size_t names)
{
    Store s = plain(names);
    for (size_t n = 0; n < names; n++)
        s.entries[n].name = "refs/tags/" + std::to_string(n);
    return s;
}

// ---- W1

// Update rows in their order, each with its line before its value; deletes between them wait.
static void test_order()
{
    Store store = plain(5);
    store.entries[1].loose = object(11);
    store.entries[3].loose = object(13);
    store.lines = {{3, 0, 13, 1, 0}, {1, 0, 11, 1, 0}};
    commits(store, {deleting(3), updating(4, object(4)), deleting(1), updating(0, object(5))}, 1,
            {line(4, 0, 4), loose(4, object(4)), line(0, 0, 5), loose(0, object(5)), no_log(3), no_log(1), no_loose(3),
             no_loose(1)});
    store.entries[1].packed = 21;
    store.entries[2].packed = 22;
    commits(store, {deleting(3), updating(4, object(4)), deleting(1), deleting(2), updating(0, object(5))}, 2,
            {line(4, 0, 4), loose(4, object(4)), line(0, 0, 5), loose(0, object(5)), no_log(3), no_log(1),
             packed({{4, 4}, {1, 0}, {2, 0}, {0, 5}}), no_loose(3), no_loose(1)});
    commits(store, {deleting(3), updating(4, object(4)), deleting(1), updating(2, object(5))}, 3,
            {line(4, 0, 4), line(2, 22, 5), no_log(3), no_log(1), packed({{4, 4}, {1, 0}, {2, 5}}), no_loose(3), no_loose(1)});
}

// A value is written where the lock was kept, over whatever is there.
static void test_loose_values()
{
    for (const Value &there : {Value{}, BROKEN_VALUE, object(8), link(1)}) {
        Store store = tags(2);
        store.entries[0].loose = there;
        commits(store, {updating(0, object(5))}, 1, {loose(0, object(5))});
        commits(store, {updating(0, link(0))}, 1, {loose(0, link(0))});
        commits(store, {log_only(updating(0, object(5)))}, 1, {});
        commits(store, {log_only(updating(0, link(0)))}, 1, {});
    }
    // An object that is there already is not written again, a link that is there already is.
    Store store = tags(2);
    store.entries[0].loose = object(5);
    store.entries[1].loose = link(0);
    commits(store, {updating(0, object(5)), updating(1, link(0))}, 1, {loose(1, link(0))});
    // What is packed is there too, if it is seen.
    store.entries[0] = {store.entries[0].name, BROKEN_VALUE, 5, FREE};
    commits(store, {updating(0, object(5))}, 1, {});
    commits(store, {updating(0, object(6))}, 1, {loose(0, object(6))});
    commits(store, {updating(0, link(1))}, 1, {loose(0, link(1))});
}

// Through links the last row alone has a value to write.
static void test_chains()
{
    Store store = chain(2, object(5));
    commits(store, {through(updating(0, object(7)))}, 1, {line(0, 5, 7), line(1, 5, 7), line(2, 5, 7), loose(2, object(7))});
    commits(store, {through(updating(0, link(1)))}, 1, {loose(2, link(1))});
    commits(store, {through(updating(0, object(5)))}, 1, {});
    commits(store, {through(log_only(updating(0, object(7))))}, 1, {line(0, 5, 7), line(1, 5, 7), line(2, 5, 7)});
    commits(store, {through(updating(0, object(7)))}, 3,
            {line(0, 5, 7), line(1, 5, 7), line(2, 5, 7), packed({{2, 7}}), no_loose(2)});
    store.lines = {{1, 0, 5, 1, 0}, {2, 0, 5, 1, 0}, {0, 0, 5, 1, 0}};
    commits(store, {through(deleting(0))}, 1, {no_log(0), no_log(1), no_log(2), no_loose(2)});
}

// ---- W2

// A name's log goes as a whole, and the lines of the others close up in their order.
static void test_logs()
{
    Store store = tags(4);
    for (uint16_t i = 0; i < 24; i++)
        store.lines.push_back({uint16_t(i % 3), uint64_t(i) << 32, uint64_t(i) + 1, uint16_t(i + 1), uint16_t(i * 257)});
    commits(store, {deleting(0)}, 1, {no_log(0)});
    commits(store, {deleting(2), deleting(1), deleting(0)}, 1, {no_log(2), no_log(1), no_log(0)});
    commits(store, {deleting(3), log_only(deleting(1))}, 1, {no_log(1)});
    store.entries[1].loose = object(3);
    commits(store, {log_only(deleting(1))}, 1, {no_log(1)});
    commits(store, {deleting(1)}, 1, {no_log(1), no_loose(1)});
    store.setting = 0; // says which lines are written, not which are removed
    commits(store, {deleting(1)}, 1, {no_log(1), no_loose(1)});
    store.setting = 1;
    store.lines.assign(MOST_LINES, {0, 0, 1, 1, 1});
    store.lines[5].name = store.lines[MOST_LINES - 1].name = 2;
    commits(store, {deleting(0)}, 1, {no_log(0)});
    commits(store, {deleting(2)}, 1, {no_log(2)});
    // A new name's line comes behind those that stay, and those that are removed go from before it.
    store.lines.pop_back();
    store.entries[3].name = "refs/heads/3";
    commits(store, {deleting(0), updating(3, object(9))}, 1, {line(3, 0, 9), loose(3, object(9)), no_log(0)});
}

// ---- W3

// Mode 1 removes and sets nothing; modes 2 and 3 set the objects of updates, an equal one too.
static void test_packed()
{
    Store store = tags(4);
    store.entries[0].packed = 5;
    store.entries[1].packed = 6;
    const std::vector<Edit> edits = {updating(0, object(5)), deleting(1), updating(2, object(7)), updating(3, link(0))};
    commits(store, edits, 1, {loose(2, object(7)), loose(3, link(0)), packed({{1, 0}})});
    commits(store, edits, 2, {loose(2, object(7)), loose(3, link(0)), packed({{0, 5}, {1, 0}, {2, 7}})});
    commits(store, edits, 3, {loose(3, link(0)), packed({{0, 5}, {1, 0}, {2, 7}})});
    // The same value again: one write, and no byte of the values is another one.
    for (uint8_t mode : {2, 3})
        commits(store, {updating(0, object(5))}, mode, {packed({{0, 5}})});
    commits(store, {updating(0, object(5))}, 1, {});
    // Opened, and nothing for it.
    commits(store, {updating(0, object(8))}, 1, {loose(0, object(8))});
    commits(store, {deleting(2)}, 3, {});
    commits(store, {updating(2, link(0))}, 3, {loose(2, link(0))});
}

// Only rows that count have something for the packed table.
static void test_counting()
{
    Store store = tags(4);
    store.entries[0].packed = 5;
    store.entries[1].packed = 6;
    store.entries[2].name = "refs/bisect/bad";
    for (uint8_t mode : {1, 2, 3}) {
        commits(store, {log_only(deleting(0)), log_only(updating(1, object(7)))}, mode, {});
        commits(store, {updating(2, object(7))}, mode, {loose(2, object(7))});
        commits(store, {log_only(deleting(0)), deleting(1)}, mode, {packed({{1, 0}})});
    }
    commits(store, {updating(2, object(7)), log_only(updating(0, object(8))), updating(3, object(9))}, 2,
            {loose(2, object(7)), loose(3, object(9)), packed({{3, 9}})});
    // Every bit of an object is packed, and every name.
    Store wide = tags(256);
    std::vector<Edit> edits;
    std::vector<std::pair<uint16_t, uint64_t>> objects;
    for (uint16_t n = 0; n < 32; n++) {
        uint16_t name = uint16_t(255 - 8 * n);
        objects.emplace_back(name, ~uint64_t(0) - n * 0x0101010101010101);
        edits.push_back(updating(name, object(objects.back().second)));
    }
    World world(wide);
    world.gives(call::prepare(write_list(edits), 3), 0, {32});
    world.gives(call::commit(0, 1), 0, {1});
    for (const auto &[name, number] : objects)
        world.gives(call::read_name(name), 0, {OBJECT, number, PLACE_PACKED});
}

// ---- W4

// A loose value goes, a broken one too, of deletes and of direct rows; never of a log-only row.
static void test_removed()
{
    for (const Value &there : {BROKEN_VALUE, object(8), link(1)}) {
        Store store = tags(3);
        store.entries[0].loose = there;
        for (uint8_t mode : {1, 2, 3}) {
            commits(store, {deleting(0)}, mode, {no_loose(0)});
            commits(store, {log_only(deleting(0))}, mode, {});
        }
        commits(store, {updating(0, object(5))}, 3, {packed({{0, 5}}), no_loose(0)});
        commits(store, {log_only(updating(0, object(5)))}, 3, {});
        commits(store, {log_only(updating(0, object(5))), updating(2, object(6))}, 3, {packed({{2, 6}})});
        store.entries[0].packed = 3;
        for (uint8_t mode : {1, 2, 3})
            commits(store, {deleting(0)}, mode, {packed({{0, 0}}), no_loose(0)});
    }
    // A direct row's value is packed and its loose one removed even where it is the same.
    Store store = tags(2);
    store.entries[0].loose = object(5);
    commits(store, {updating(0, object(5))}, 3, {packed({{0, 5}}), no_loose(0)});
    // Of a name that is not packable the value is written loose in mode 3 too, and stays.
    store.entries[0].name = "HEAD";
    store.setting = 0;
    commits(store, {updating(0, object(7))}, 3, {loose(0, object(7))});
    commits(store, {updating(0, object(5))}, 3, {});
    commits(store, {deleting(0), updating(1, object(5))}, 3, {packed({{1, 5}}), no_loose(0)});
}

void test_commit_writes()
{
    test_order();
    test_loose_values();
    test_chains();
    test_logs();
    test_packed();
    test_counting();
    test_removed();
}
