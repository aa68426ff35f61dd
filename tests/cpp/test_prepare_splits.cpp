// R1: which rows an edit list becomes, links that lead on too long, and names that come twice.
#include "preparing.h"
#include "tests.h"

#include <functional>

// The rows of one edit through a chain of links: all but the last are log-only, and found the link to the next.
static std::vector<Row> rows_through(size_t hops, const Row &last, uint64_t leaf_previous)
{
    std::vector<Row> rows;
    for (uint16_t n = 0; n <= hops; n++) {
        Row row = last;
        if (n < hops)
            row = log_only(with_leaf(found(row, link(n + 1)), leaf_previous));
        row.name = n;
        rows.push_back(n > 0 ? child_of(uint8_t(n - 1), row) : row);
    }
    return rows;
}

static const Value ENDS[] = {{}, {BROKEN, 0}, {OBJECT, 5}};

// 0 to 6 hops, to each kind of end, in each mode.
static void test_hops()
{
    for (size_t hops = 0; hops <= 6; hops++)
        for (const Value &end : ENDS)
            for (uint8_t mode : {1, 2, 3})
                for (const Edit &edit : {updating(0, object(7)), updating(0, link(0)), deleting(0)}) {
                    const Store store = chain(hops, end);
                    if (hops >= 5) {
                        refuses(store, {through(edit)}, mode, 4);
                        continue;
                    }
                    Row last = edit.kind == UPDATE ? update(0, edit.new_target) : deletion(0);
                    if (end.kind == OBJECT)
                        last = found(last, end);
                    prepares(store, {through(edit)}, mode, rows_through(hops, last, end.kind == OBJECT ? 5 : 0));
                    // Without deref there is one row, and it finds the link.
                    Row alone = edit.kind == UPDATE ? update(0, edit.new_target) : deletion(0);
                    Value there = hops > 0 ? link(1) : end;
                    if (there.kind == OBJECT || there.kind == LINK)
                        alone = found(alone, there);
                    prepares(store, {edit}, mode, {alone});
                }
}

// Two hops of an edit that uses every field.
static void test_what_a_child_takes()
{
    Store store = chain(2, object(5));
    Edit edit = through(expecting(updating(0, link(2)), MUST_EXIST_AND_MATCH, object(5)));
    edit.force = 1;
    edit.message = 0x1234;
    Row last = update(0, link(2));
    last.force = 1;
    last.message = 0x1234;
    // An update's expected value moves: the links on the way are not judged by it.
    prepares(store, {edit}, 1, rows_through(2, found(last, object(5)), 5));
    // A log-only edit has log-only children.
    prepares(store, {log_only(edit)}, 1, rows_through(2, log_only(found(last, object(5))), 5));

    // Where nothing is at the end, what is expected stays with the last row.
    store = chain(2, {});
    prepares(store, {expecting(edit, EXISTING_MUST_MATCH, object(6))}, 1,
             rows_through(2, expecting(last, EXISTING_MUST_MATCH, object(6)), 6));
    prepares(store, {expecting(edit, EXISTING_MUST_MATCH, link(1))}, 1,
             rows_through(2, expecting(last, EXISTING_MUST_MATCH, link(1)), 0));
    prepares(store, {expecting(edit, MUST_NOT_EXIST)}, 1, rows_through(2, expecting(last, MUST_NOT_EXIST), 0));
    refuses(store, {expecting(edit, MUST_EXIST)}, 1, 11, {2, OBJECT, 0});
    refuses(store, {edit}, 1, 11, {2, OBJECT, 5});
}

// A delete's expected value is copied: every row on the way is judged by it.
static void test_delete()
{
    const Edit edit = through(deleting(0));
    const Row last = deletion(0);
    for (size_t hops : {1, 4}) {
        Store store = chain(hops, object(5));
        prepares(store, {expecting(edit, MUST_EXIST)}, 1, rows_through(hops, found(last, object(5)), 5));
        refuses(store, {expecting(edit, MUST_NOT_EXIST)}, 1, 13, {0});
        refuses(store, {expecting(edit, MUST_EXIST_AND_MATCH, object(5))}, 1, 12, {0, OBJECT, 5, LINK, 1});
        refuses(store, {expecting(edit, EXISTING_MUST_MATCH, object(5))}, 1, 12, {0, OBJECT, 5, LINK, 1});
        refuses(chain(hops, {}), {expecting(edit, MUST_EXIST)}, 1, 9, {hops});
    }
    // The first row matches, the second does not.
    refuses(chain(1, object(5)), {expecting(edit, MUST_EXIST_AND_MATCH, link(1))}, 1, 12, {1, LINK, 1, OBJECT, 5});
    refuses(chain(2, object(5)), {expecting(edit, MUST_EXIST_AND_MATCH, link(1))}, 1, 12, {1, LINK, 1, LINK, 2});
    refuses(chain(1, {}), {expecting(edit, MUST_EXIST_AND_MATCH, link(1))}, 1, 9, {1});
    // The first matches, and the second has nothing to match.
    prepares(chain(1, {}), {expecting(edit, EXISTING_MUST_MATCH, link(1))}, 1,
             {log_only(found(deletion(0), link(1))), child_of(0, expecting(deletion(1), EXISTING_MUST_MATCH, link(1)))});
}

// All edits, then all children of the first round in the order of their parents, and so on.
static void test_rounds()
{
    Store store = plain(10);
    store.entries[9].loose = link(3); // 9 to 3 to 7
    store.entries[3].loose = link(7);
    store.entries[0].loose = link(8); // not followed
    store.entries[5].loose = link(2); // 5 to 2
    store.entries[1].loose = link(6); // 1 to 6 to 4
    store.entries[6].loose = link(4);
    store.entries[4].loose = object(44);
    Edit kept = updating(5, object(51));
    kept.message = 5;
    auto on_the_way = [](Row row, uint64_t to) { return log_only(found(row, link(to))); };
    Row five = on_the_way(update(5, object(51)), 2), two = update(2, object(51));
    five.message = two.message = 5;
    const std::vector<Edit> edits = {through(updating(9, object(91))), updating(0, object(90)), through(kept),
                                     through(deleting(8)), through(deleting(1))};
    const std::vector<Row> rows = {
        on_the_way(update(9, object(91)), 3),
        found(update(0, object(90)), link(8)),
        five,
        deletion(8),
        with_leaf(on_the_way(deletion(1), 6), 44),
        child_of(0, on_the_way(update(3, object(91)), 7)),
        child_of(2, two),
        child_of(4, with_leaf(on_the_way(deletion(6), 4), 44)),
        child_of(5, update(7, object(91))),
        child_of(7, found(deletion(4), object(44))),
    };
    for (uint8_t mode : {1, 2, 3})
        prepares(store, edits, mode, rows);

    // A later edit is judged before an earlier edit's child.
    store.entries[7].lock = store.entries[0].lock = FOREIGN;
    refuses(store, edits, 1, 8, {0});
    store.entries[0].lock = FREE;
    refuses(store, edits, 1, 8, {9});
}

// A link that leads back is a link too many, and no name that comes twice. If it is not followed, it is a value like another.
static void test_cycles()
{
    for (size_t names : {1, 2, 3, 5, 7}) {
        Store store = plain(names);
        for (size_t n = 0; n < names; n++)
            store.entries[n].loose = link((n + 1) % names);
        for (const Edit &edit : {updating(0, object(7)), deleting(0)}) {
            refuses(store, {through(edit)}, 1, 4);
            refuses(store, {through(edit), edit}, 1, 4);
            Row row = edit.kind == UPDATE ? update(0, object(7)) : deletion(0);
            prepares(store, {edit}, 1, {found(row, link(1 % names))});
        }
    }
    // A cycle that is reached from outside, and one edit among others.
    Store store = chain(2, link(2));
    refuses(store, {through(updating(0, object(7)))}, 3, 4);
    store.entries.push_back({"refs/heads/other", {}, 0, FOREIGN});
    store.packed_lock = FOREIGN;
    refuses(store, {updating(3, object(7)), updating(3, object(8)), through(deleting(1))}, 1, 4);
    refuses(store, {updating(3, object(7)), updating(3, object(8)), deleting(1)}, 1, 6, {3});
}

// Only a loose link splits: packed values, objects and broken values do not.
static void test_no_split()
{
    Store store = plain(4);
    store.entries[0].packed = 1;
    store.entries[1].loose = object(1);
    store.entries[2].loose = {BROKEN, 0};
    store.entries[3].packed = 3;
    store.entries[3].loose = {BROKEN, 0};
    const std::vector<Edit> edits = {through(deleting(0)), through(deleting(1)), through(deleting(2)), through(deleting(3))};
    const std::vector<Row> rows = {found(deletion(0), object(1)), found(deletion(1), object(1)), deletion(2),
                                   found(deletion(3), object(3))};
    prepares(store, edits, 1, rows);
    // A link behind which the packed value is hidden.
    store.entries[0].loose = link(1);
    prepares(store, {through(updating(0, object(9)))}, 1,
             {log_only(with_leaf(found(update(0, object(9)), link(1)), 1)),
              child_of(0, found(update(1, object(9)), object(1)))});
}

// Names in an order that is neither that of their bytes nor the other way round.
static Store by_bytes()
{
    Store s;
    for (const char *name : {"refs/b", "refs/a/b", "refs/a-b", "refs/ab", "refs/a.b", "refs/a", "A_", "AB", "A", "refs/B"})
        s.entries.push_back({name, {}, 0, FREE});
    return s;
}

// Of the names that come twice the least by its bytes: A, AB, A_, refs/B, refs/a, refs/a-b, refs/a.b, refs/a/b, refs/ab, refs/b.
static void test_repeated()
{
    const uint16_t in_order[] = {8, 7, 6, 9, 5, 2, 4, 1, 3, 0};
    const Store store = by_bytes();
    auto edits_of = [](const std::vector<uint16_t> &names) {
        std::vector<Edit> edits;
        for (uint16_t n : names)
            edits.push_back(deleting(n));
        return edits;
    };
    for (size_t i = 0; i < 10; i++)
        for (size_t j = i; j < 10; j++) {
            uint16_t less = in_order[i], more = in_order[j];
            refuses(store, edits_of({more, less, less, more}), 1, 6, {less});
            refuses(store, edits_of({less, more, more, less}), 1, 6, {less});
        }
    refuses(store, edits_of({0, 3, 8, 4, 2, 3, 0, 4, 0}), 1, 6, {4}); // A and refs/a-b come once
    refuses(store, edits_of({5, 5, 5}), 1, 6, {5});

    // Whatever else the two edits say.
    refuses(store, {updating(9, object(1)), log_only(deleting(9))}, 2, 6, {9});
    // 6 comes before 7 and 8, and before what is expected.
    Store held = store;
    held.packed_lock = FOREIGN;
    for (Entry &entry : held.entries)
        entry.lock = FOREIGN;
    refuses(held, {expecting(deleting(5), MUST_EXIST), deleting(0), updating(0, object(1))}, 1, 6, {0});
    held.setting = 2;
    held.lines.assign(1024, {0, 0, 1, 1, 0});
    refuses(held, {deleting(5), updating(0, object(2)), updating(0, object(1))}, 1, 6, {0});
}

// Names that come twice by splitting: of an edit and a child, of two children, of an edit and its own child's child.
static void test_repeated_by_splits()
{
    Store store = by_bytes();
    store.entries[6].loose = link(0); // A_ to refs/b
    store.entries[7].loose = link(0); // AB to refs/b
    store.entries[8].loose = link(3); // A to refs/ab
    const Edit a_ = through(deleting(6)), ab = through(deleting(7)), a = through(deleting(8));
    refuses(store, {a_, deleting(0)}, 1, 6, {0});
    refuses(store, {deleting(0), a_}, 1, 6, {0});
    refuses(store, {a_, ab}, 1, 6, {0});
    refuses(store, {ab, a, deleting(3), a_}, 1, 6, {3});
    refuses(store, {a_, a, ab, deleting(3)}, 1, 6, {3});
    // The links themselves may be edited side by side, since only a row's own name counts.
    prepares(store, {a_, deleting(7), a}, 1,
             {log_only(found(deletion(6), link(0))), found(deletion(7), link(0)), log_only(found(deletion(8), link(3))),
              child_of(0, deletion(0)), child_of(2, deletion(3))});
    // In different rounds.
    store = chain(3, {});
    refuses(store, {through(updating(0, object(1))), through(updating(2, object(1)))}, 1, 6, {2});
    refuses(store, {through(updating(0, object(1))), updating(3, object(1))}, 1, 6, {3});
    refuses(store, {through(updating(1, object(1))), through(updating(0, object(1)))}, 1, 6, {1});
}

// 32 names, with a chain of four hops from each: 160 names, and one more that no chain has.
static Store chains_of_all()
{
    Store store = plain(161);
    store.setting = 2;
    for (uint16_t n = 0; n < 128; n++)
        store.entries[n].loose = link(n + 32);
    for (uint16_t n = 128; n < 160; n++)
        store.entries[n].loose = object(n);
    return store;
}

static std::vector<Edit> edits_of_all()
{
    std::vector<Edit> edits;
    for (uint16_t n = 0; n < 32; n++)
        edits.push_back(through(updating(n, object(1000 + n))));
    return edits;
}

// 160 rows, which is all that a transaction holds.
static void test_most_rows()
{
    std::vector<Row> rows;
    for (uint16_t n = 0; n < 160; n++) {
        Row row = update(n, object(1000 + n % 32));
        row = n < 128 ? log_only(with_leaf(found(row, link(n + 32)), 128 + n % 32)) : found(row, object(n));
        rows.push_back(n < 32 ? row : child_of(uint8_t(n - 32), row));
    }
    for (uint8_t mode : {1, 3})
        prepares(chains_of_all(), edits_of_all(), mode, rows);
}

// The last of 160 rows is judged like the others; and a hop more, of one chain or of all, is one too many.
static void test_last_row()
{
    const std::vector<Edit> edits = edits_of_all();
    auto changed = [](const std::function<void(Store &)> &change) {
        Store store = chains_of_all();
        change(store);
        return store;
    };
    for (uint16_t n : {128, 140, 159})
        refuses(changed([=](Store &s) { s.entries[n].loose = link(160); }), edits, 1, 4);
    refuses(changed([](Store &s) {
                for (uint16_t n = 128; n < 160; n++)
                    s.entries[n].loose = link(160);
            }),
            edits, 1, 4);
    refuses(changed([](Store &s) { s.entries[127].loose = link(158); }), edits, 1, 6, {158});
    refuses(changed([](Store &s) { s.entries[159].lock = FOREIGN; }), edits, 1, 8, {31});
    std::vector<Edit> expected = edits;
    expected[31] = expecting(edits[31], MUST_EXIST_AND_MATCH, object(7));
    refuses(chains_of_all(), expected, 1, 12, {159, OBJECT, 7, OBJECT, 159});
    refuses(changed([](Store &s) { s.entries[159].loose = {}; }), expected, 1, 11, {159, OBJECT, 7});
}

// Chains and names that come twice among the last names.
static void test_last_names()
{
    Store store = plain(256);
    for (uint16_t n = 252; n < 256; n++)
        store.entries[n].loose = link(n - 1); // from 255 down to 251
    auto row = [](uint16_t name) { return update(name, object(7)); };
    auto on_the_way = [&](uint16_t name) { return log_only(found(row(name), link(name - 1))); };
    prepares(store, {through(updating(255, object(7)))}, 1,
             {on_the_way(255), child_of(0, on_the_way(254)), child_of(1, on_the_way(253)), child_of(2, on_the_way(252)),
              child_of(3, row(251))});
    refuses(store, {deleting(255), deleting(0), deleting(255)}, 1, 6, {255});
    refuses(store, {through(deleting(253)), through(deleting(255))}, 1, 6, {251});
    std::vector<Edit> edits;
    for (uint16_t n = 0; n < 31; n++)
        edits.push_back(deleting(n + 200));
    edits.push_back(deleting(200));
    refuses(store, edits, 1, 6, {200});
}

void test_prepare_splits()
{
    test_hops();
    test_what_a_child_takes();
    test_delete();
    test_rounds();
    test_cycles();
    test_no_split();
    test_repeated();
    test_repeated_by_splits();
    test_most_rows();
    test_last_row();
    test_last_names();
}
