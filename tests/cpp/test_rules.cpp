// The rules of a good region, one by one: kept at the edge, and broken just past it.
#include "samples.h"
#include "tests.h"
#include "world.h"

#include <functional>

using Change = std::function<void(Store &)>;

static void good(const char *what, Store store, const Change &change, AT_CALLER)
{
    change(store);
    taken_for(true, encode(store), what, at);
}

static void bad(const char *what, Store store, const Change &change, AT_CALLER)
{
    change(store);
    taken_for(false, encode(store), what, at);
}

// The same of a change of the rows, which then take the locks that they keep: nothing is wrong but the change.
static void good_rows(const char *what, Store store, const Change &change, AT_CALLER)
{
    change(store);
    take_locks(store);
    taken_for(true, encode(store), what, at);
}

static void bad_rows(const char *what, Store store, const Change &change, AT_CALLER)
{
    change(store);
    take_locks(store);
    taken_for(false, encode(store), what, at);
}

static void with_bytes(bool is_good, const char *what, const Store &store, const std::vector<std::pair<size_t, uint8_t>> &bytes,
                       AT_CALLER)
{
    Bytes region = encode(store);
    for (const auto &[offset, byte] : bytes)
        region[offset] = byte;
    taken_for(is_good, region, what, at);
}

static void test_header_fields()
{
    for (const Store &s : {Store{}, busy(), nested(), prepared(), prepared_in(1), prepared_in(2), prepared_in(3), nested_prepared()})
        with_bytes(true, "unchanged", s, {});
    for (uint8_t version : {0, 2, 255})
        with_bytes(false, "version", busy(), {{0, version}});
    with_bytes(false, "length of the rest", busy(), {{1, 1}});
    with_bytes(false, "length of the rest", busy(), {{2, 1}});
    with_bytes(false, "length of the rest", busy(), {{3, 0xC2}});
    with_bytes(false, "length of the rest: all of it", busy(), {{4, 0x8D}});
    for (uint8_t setting : {0, 1, 2})
        with_bytes(true, "setting", busy(), {{AT_SETTING, setting}});
    for (uint8_t setting : {3, 255})
        with_bytes(false, "setting", busy(), {{AT_SETTING, setting}});
    for (uint8_t mode : {1, 2, 3})
        with_bytes(true, "a mode, and no rows", busy(), {{AT_MODE, mode}});
    for (uint8_t mode : {4, 255})
        with_bytes(false, "mode", busy(), {{AT_MODE, mode}});
    for (uint8_t mode : {0, 4, 255})
        with_bytes(false, "mode", prepared(), {{AT_MODE, mode}});
    with_bytes(false, "a row, and nothing prepared", busy(), {{AT_ROW_COUNT, 1}});
    for (uint8_t lock : {FREE, FOREIGN})
        with_bytes(true, "packed lock", busy(), {{AT_PACKED_LOCK, lock}});
    for (uint8_t lock : {2, 3, 255})
        with_bytes(false, "packed lock", busy(), {{AT_PACKED_LOCK, lock}});
}

// A count that is one too small leaves a slot that is not zero; one too large makes a slot of zeros count.
static void test_counts()
{
    with_bytes(false, "a name fewer", busy(), {{AT_NAME_COUNT + 1, 4}});
    with_bytes(false, "a name more", busy(), {{AT_NAME_COUNT + 1, 6}});
    with_bytes(false, "256 names more", busy(), {{AT_NAME_COUNT, 1}});
    with_bytes(false, "a line fewer", busy(), {{AT_LINE_COUNT + 1, 5}});
    with_bytes(false, "a line more", busy(), {{AT_LINE_COUNT + 1, 7}});
    with_bytes(false, "a row fewer", prepared(), {{AT_ROW_COUNT, 3}});
    with_bytes(false, "a row more", prepared(), {{AT_ROW_COUNT, 5}});

    Store full = busy();
    while (full.entries.size() < MOST_NAMES)
        full.entries.push_back({"refs/heads/" + std::to_string(full.entries.size()), {}, 0, FREE});
    while (full.lines.size() < MOST_LINES)
        full.lines.push_back({255, 0, 1, 1, 0});
    with_bytes(true, "256 names and 1,024 lines", full, {});
    with_bytes(false, "257 names", full, {{AT_NAME_COUNT + 1, 1}});
    with_bytes(false, "512 names", full, {{AT_NAME_COUNT, 2}});
    with_bytes(false, "1,025 lines", full, {{AT_LINE_COUNT + 1, 1}});
    with_bytes(false, "a line of name 256", full, {{LINES.slot(9), 1}, {LINES.slot(9) + 1, 0}});

    full.lines.clear();
    full.mode = 1;
    for (uint16_t n = 0; n < MOST_ROWS; n++)
        full.rows.push_back(deletion(uint16_t(n + 60)));
    take_locks(full);
    with_bytes(true, "160 rows", full, {});
    with_bytes(false, "161 rows", full, {{AT_ROW_COUNT, 161}});
    with_bytes(false, "255 rows", full, {{AT_ROW_COUNT, 255}});
}

// One byte that is not zero: the first and the last of each part that is not used.
static void test_unused()
{
    Store s = busy();
    size_t names = s.entries.size(), lines = s.lines.size();
    const std::pair<size_t, size_t> unused[] = {
        {name_offset(0) + 4, NAMES.slot(1)}, {NAMES.slot(names), NAMES.end()}, {LOOSE.slot(names), LOOSE.end()},
        {PACKED.slot(names), PACKED.end()},  {LOCKS.slot(names), LOCKS.end()}, {ROWS.at, ROWS.end()},
        {LINES.slot(lines), LINES.end()},
    };
    for (const auto &[first, end] : unused)
        for (size_t at : {first, (first + end) / 2, end - 1})
            for (uint8_t byte : {1, 65, 128})
                with_bytes(false, "a byte that is not used", s, {{at, byte}});
}

static void test_name_rules()
{
    for (const char *name : {"", "head", "refs/", "refs/a..b", "refs/a.lock", "refs/a/", "HEAD/"})
        bad("no name", busy(), [=](Store &s) { s.entries[4].name = name; });
    good("64 bytes", busy(), [](Store &s) { s.entries[4].name = std::string(64, 'A'); });
    Bytes long_name = encode(busy());
    std::fill_n(long_name.begin() + NAMES.slot(4) + 1, 65, 'A');
    long_name[NAMES.slot(4)] = 65;
    taken_for(false, long_name, "65 bytes, into the next slot");
    bad("two names alike", busy(), [](Store &s) { s.entries[4].name = "HEAD"; });
    bad("two names alike", busy(), [](Store &s) { s.entries[3].name = "refs/heads/b./c"; });
    good("one name begins the other", busy(), [](Store &s) { s.entries[4].name = "HEADS"; });
    good("one name ends the other", busy(), [](Store &s) { s.entries[4].name = "AHEAD"; });
    const auto longest = [](Store &s) { s.entries[0].name = s.entries[1].name = std::string(64, 'A'); };
    bad("two names alike, of 64 bytes", plain(2), longest);
    for (size_t at : {0, 31, 63})
        good("two names of 64 bytes, of which one differs", plain(2), [=](Store &s) { longest(s), s.entries[1].name[at] = 'B'; });
    with_bytes(false, "a length that is too small", busy(), {{NAMES.slot(0), 3}});
    with_bytes(false, "a length that is too large", busy(), {{NAMES.slot(0), 5}});
    with_bytes(false, "a length of 0", busy(), {{NAMES.slot(0), 0}});
    for (uint8_t lock : {FREE, FOREIGN})
        good("lock", busy(), [=](Store &s) { s.entries[1].lock = lock; });
    for (uint8_t lock : {2, 3, 255})
        bad("lock", busy(), [=](Store &s) { s.entries[1].lock = lock; });
}

static void test_value_rules()
{
    auto loose = [](Value value) { return [=](Store &s) { s.entries[4].loose = value; }; };
    for (Value value : {Value{}, object(1), object(~uint64_t(0)), link(0), link(4), Value{BROKEN, 0}})
        good("loose value", busy(), loose(value));
    for (Value value : {Value{NONE, 1}, object(0), link(5), link(256), link(65536), link(~uint64_t(0)), Value{BROKEN, 1},
                        Value{4, 0}, Value{4, 1}, Value{255, 0}})
        bad("loose value", busy(), loose(value));
    for (size_t n : {1, 2, 4})
        good("packed value", busy(), [=](Store &s) { s.entries[n].packed = ~uint64_t(0); });
    for (size_t n : {0, 3})
        bad("packed value of an unpackable name", busy(), [=](Store &s) { s.entries[n].packed = 1; });
}

static void test_line_rules()
{
    good("from 0", busy(), [](Store &s) { s.lines[2].before = 0; });
    good("to the same", busy(), [](Store &s) { s.lines[2].after = s.lines[2].before; });
    bad("to 0", busy(), [](Store &s) { s.lines[2].after = 0; });
    good("of the last name", busy(), [](Store &s) { s.lines[2].name = 4; });
    bad("of no name", busy(), [](Store &s) { s.lines[2].name = 5; });
    bad("of no name", busy(), [](Store &s) { s.lines[2].name = 65535; });
    bad("no committer", busy(), [](Store &s) { s.lines[2].committer = 0; });
    good("committer", busy(), [](Store &s) { s.lines[2].committer = 1; });
    bad("the last line", busy(), [](Store &s) { s.lines[5].committer = 0; });
}

static void test_row_fields()
{
    auto row = [](size_t i, const std::function<void(Row &)> &change) { return [=](Store &s) { change(s.rows[i]); }; };
    bad_rows("of no name", prepared(), row(1, [](Row &r) { r.name = 6; }));
    bad_rows("of no name", prepared(), row(1, [](Row &r) { r.name = 256; }));
    bad_rows("two rows of one name", prepared(), row(3, [](Row &r) { r.name = 1; }));
    good_rows("of another name", prepared(), row(3, [](Row &r) { r.name = 5; }));
    for (uint8_t kind : {0, 3, 255})
        for (size_t i : {1, 3})
            bad_rows("kind", prepared(), row(i, [=](Row &r) { r.kind = kind; }));
    bad_rows("an update made a delete", prepared(), row(2, [](Row &r) { r.kind = DELETE; }));
    bad_rows("a delete made an update", prepared(), row(3, [](Row &r) { r.kind = UPDATE; }));
    for (uint8_t flag : {2, 255}) {
        bad_rows("log", prepared(), row(0, [=](Row &r) { r.log_only = flag; }));
        bad_rows("force", prepared(), row(0, [=](Row &r) { r.force = flag; }));
        bad_rows("has a parent", prepared(), row(1, [=](Row &r) { r.has_parent = flag; }));
    }
    for (uint8_t flag : {0, 1}) {
        good_rows("log", prepared(), row(3, [=](Row &r) { r.log_only = flag; }));
        good_rows("force", prepared(), row(2, [=](Row &r) { r.force = flag; }));
    }
    bad_rows("a delete with force", prepared(), row(3, [](Row &r) { r.force = 1; }));
    bad_rows("a delete with a message", prepared(), row(3, [](Row &r) { r.message = 1; }));
    bad_rows("a delete with a message", prepared(), row(3, [](Row &r) { r.message = 256; }));
    bad_rows("a delete with a target", prepared(), row(3, [](Row &r) { r.new_target = object(1); }));
    bad_rows("a delete with a number", prepared(), row(3, [](Row &r) { r.new_target = {NONE, 1}; }));
    for (Value value : {Value{}, Value{NONE, 1}, object(0), link(6), link(65536), Value{BROKEN, 0}, Value{4, 1}})
        bad_rows("new target", prepared(), row(1, [=](Row &r) { r.new_target = value; }));
    for (Value value : {object(1), object(~uint64_t(0)), link(0), link(5)})
        good_rows("new target", prepared(), row(1, [=](Row &r) { r.new_target = value; }));
    good_rows("message", prepared(), row(2, [](Row &r) { r.message = 65535; }));
    good_rows("leaf-previous", prepared(), row(2, [](Row &r) { r.leaf_previous = ~uint64_t(0); }));
}

static void test_expected_rules()
{
    auto expects = [](size_t i, uint8_t expected, Value target) {
        return [=](Store &s) {
            s.rows[i].expected = expected;
            s.rows[i].expected_target = target;
        };
    };
    for (size_t i : {1, 3}) { // an update and a delete
        for (uint8_t expected : {ANY, MUST_EXIST, MUST_NOT_EXIST}) {
            good_rows("expected", prepared(), expects(i, expected, {}));
            for (Value value : {Value{NONE, 1}, object(1), link(1), Value{BROKEN, 0}})
                bad_rows("expected, with a target", prepared(), expects(i, expected, value));
        }
        for (uint8_t expected : {MUST_EXIST_AND_MATCH, EXISTING_MUST_MATCH}) {
            for (Value value : {object(1), object(~uint64_t(0)), link(0), link(5)})
                good_rows("expected", prepared(), expects(i, expected, value));
            for (Value value : {Value{}, Value{NONE, 1}, object(0), link(6), link(65536), Value{BROKEN, 0}, Value{4, 1}})
                bad_rows("expected, with no good target", prepared(), expects(i, expected, value));
        }
        for (uint8_t expected : {5, 255})
            for (Value value : {Value{}, object(1)})
                bad_rows("expected", prepared(), expects(i, expected, value));
    }
}

static void test_parents()
{
    auto parent = [](size_t i, uint8_t has, uint8_t place) {
        return [=](Store &s) {
            s.rows[i].has_parent = has;
            s.rows[i].parent = place;
        };
    };
    good_rows("no parent", prepared(), parent(1, 0, 0));
    bad_rows("no parent, and a place", prepared(), parent(1, 0, 1));
    good_rows("the row before", prepared(), parent(3, 1, 2));
    bad_rows("its own parent", prepared(), parent(3, 1, 3));
    bad_rows("a later parent", prepared(), parent(1, 1, 2));
    bad_rows("a parent past the end", prepared(), parent(3, 1, 4));
    bad_rows("a parent past the end", prepared(), parent(3, 1, 255));
    bad_rows("the first has a parent", prepared(), parent(0, 1, 0));

    Store chain;
    chain.mode = 1;
    for (uint16_t n = 0; n < 8; n++) {
        chain.entries.push_back({"refs/heads/" + std::to_string(n), {}, 0, FREE});
        chain.rows.push_back(deletion(n));
    }
    auto long_chain = [](size_t ancestors) {
        return [=](Store &s) {
            for (size_t i = 1; i <= ancestors; i++) {
                s.rows[i].has_parent = 1;
                s.rows[i].parent = uint8_t(i - 1);
            }
        };
    };
    take_locks(chain);
    for (size_t ancestors : {1, 2, 3, 4})
        good_rows("ancestors", chain, long_chain(ancestors));
    for (size_t ancestors : {5, 6, 7})
        bad_rows("too many ancestors", chain, long_chain(ancestors));
}

static void test_lock_rules()
{
    auto lock = [](size_t n, uint8_t state) { return [=](Store &s) { s.entries[n].lock = state; }; };
    auto packed = [](uint8_t state) { return [=](Store &s) { s.packed_lock = state; }; };
    for (size_t kept : {0, 1, 3})
        for (uint8_t state : {FREE, FOREIGN})
            bad("a kept lock that is not ours", prepared(), lock(kept, state));
    for (size_t other : {2, 4, 5}) {
        bad("a lock that is ours and not kept", prepared(), lock(other, OURS));
        for (uint8_t state : {FREE, FOREIGN})
            good("a lock that is not kept", prepared(), lock(other, state));
    }
    for (uint8_t state : {FREE, FOREIGN})
        bad("opened, and the packed lock is not ours", prepared(), packed(state));
    for (uint8_t mode : {2, 3})
        for (uint8_t state : {FREE, FOREIGN})
            bad("opened, and the packed lock is not ours", prepared_in(mode), packed(state));
    for (uint8_t state : {FREE, FOREIGN})
        good("not opened", prepared_in(1), packed(state));
    bad("not opened, and the packed lock is ours", prepared_in(1), packed(OURS));

    // Mode 3 keeps the lock of an update that changes nothing, if its name is packable.
    for (uint8_t mode : {1, 2, 3})
        for (const char *name : {"refs/heads/same", "refs/bisect/same", "HEAD"}) {
            Store s = prepared_in(mode);
            s.entries[0].name = name;
            take_locks(s);
            bool packable = name == std::string("refs/heads/same");
            s.entries[0].lock = OURS;
            taken_for(mode == 3 && packable, encode(s), "ours where nothing changes");
            s.entries[0].lock = FREE;
            taken_for(!(mode == 3 && packable), encode(s), "free where nothing changes");
            // No row but that one updates to an object and counts, and no name has a packed value.
            s = prepared_in(mode);
            s.entries[0].name = name;
            take_locks(s);
            s.packed_lock = OURS;
            taken_for(mode >= 2 && packable, encode(s), "packed lock ours");
            s.packed_lock = FOREIGN;
            taken_for(!(mode >= 2 && packable), encode(s), "packed lock foreign");
        }
    // An update keeps its lock by what it found: expected 4 says that it found nothing.
    for (uint8_t expected : {MUST_EXIST_AND_MATCH, EXISTING_MUST_MATCH}) {
        Store s = prepared_in(1);
        s.rows[0].expected = expected;
        for (uint8_t state : {FREE, FOREIGN, OURS}) {
            s.entries[0].lock = state;
            taken_for((state == OURS) == (expected == EXISTING_MUST_MATCH), encode(s), "by what it found");
        }
    }
    // The object 1 is not the link to name 1.
    for (Value was : {object(1), link(1)}) {
        Store s = prepared_in(1);
        s.rows[0] = found(update(0, object(1)), was);
        for (uint8_t state : {FREE, FOREIGN, OURS}) {
            s.entries[0].lock = state;
            taken_for((state == OURS) == (was.kind == LINK), encode(s), "an object where a link of the same number was");
        }
    }
    // An update to a link keeps its lock, even where it changes nothing.
    for (uint8_t state : {FREE, FOREIGN, OURS}) {
        Store s = prepared_in(1);
        s.rows[1] = found(update(1, link(0)), link(0));
        s.entries[1].lock = state;
        taken_for(state == OURS, encode(s), "the same link again");
    }
    // A packed value, of whatever name, opens the table for any row that counts, and for no other.
    for (bool counts : {true, false}) {
        Store s = prepared_in(1);
        s.rows = {deletion(2)};
        s.rows[0].log_only = !counts;
        s.entries[3].packed = 1;
        take_locks(s);
        s.packed_lock = OURS;
        taken_for(counts, encode(s), "opened by a packed value");
        s.packed_lock = FREE;
        taken_for(!counts, encode(s), "opened by a packed value");
    }
}

// Lines and due lines together: which rows are due one, at the edge of a full log.
static void test_room()
{
    auto fill = [](Store &s, size_t lines) {
        while (s.lines.size() < lines)
            s.lines.push_back({5, 0, 1, 1, 0});
    };
    // Rows 0 and 1 of the sample are due a line each, row 2 changes nothing, row 3 is a delete.
    good_rows("1,022 and 2 due", prepared(), [=](Store &s) { fill(s, 1022); });
    bad("1,023 and 2 due", prepared(), [=](Store &s) { fill(s, 1023); });
    bad("1,024 and 2 due", prepared(), [=](Store &s) { fill(s, 1024); });
    good_rows("1,024 and none due by setting 0", prepared(), [=](Store &s) {
        fill(s, 1024);
        s.setting = 0;
    });

    // One row on each kind of name: is it due a line?
    struct Case {
        const char *what;
        uint8_t setting;
        const char *name;
        bool has_lines, force;
        Row row;
        bool due;
    };
    Row moved = found(update(0, object(2)), object(1)), same = found(update(0, object(1)), object(1));
    Row made = update(0, object(2)), by_leaf = update(0, object(2)), from_link = found(update(0, object(2)), link(1));
    Row link_number = found(update(0, object(1)), link(1)), link_by_leaf = from_link;
    by_leaf.leaf_previous = link_by_leaf.leaf_previous = 2;
    Row linked = update(0, link(1)), cloned = linked, cloned_link = linked, relinked = found(update(0, link(1)), object(1));
    cloned.expected = cloned_link.expected = EXISTING_MUST_MATCH;
    cloned.expected_target = object(3);
    cloned_link.expected_target = link(1);
    Row log_only = moved, found_before_leaf = moved, four = update(0, object(2)), four_same = four;
    log_only.log_only = 1;
    found_before_leaf.leaf_previous = 2;
    four.expected = four_same.expected = EXISTING_MUST_MATCH;
    four.expected_target = object(2);
    four_same.expected_target = object(1);
    const Case cases[] = {
        {"moved", 1, "HEAD", false, false, moved, true},
        {"moved", 2, "HEAD", false, false, moved, true},
        {"moved", 0, "HEAD", false, true, moved, false},
        {"moved, with lines", 0, "HEAD", true, true, moved, false},
        {"moved", 1, "refs/heads/a", false, false, moved, true},
        {"moved", 1, "refs/remotes/a", false, false, moved, true},
        {"moved", 1, "refs/notes/a", false, false, moved, true},
        {"moved", 1, "refs/tags/a", false, false, moved, false},
        {"moved", 1, "refs/heads", false, false, moved, false},
        {"moved", 1, "refs/headsx/a", false, false, moved, false},
        {"moved", 1, "HEADS", false, false, moved, false},
        {"moved", 1, "FETCH_HEAD", false, false, moved, false},
        {"moved", 2, "refs/tags/a", false, false, moved, true},
        {"moved", 2, "refs/bisect/a", false, false, moved, true},
        {"moved", 2, "FETCH_HEAD", false, false, moved, false},
        {"moved, with lines", 1, "refs/tags/a", true, false, moved, true},
        {"moved, with lines", 2, "FETCH_HEAD", true, false, moved, true},
        {"moved, with force", 1, "refs/tags/a", false, true, moved, true},
        {"moved, with force", 2, "FETCH_HEAD", false, true, moved, true},
        {"the same", 2, "HEAD", true, true, same, false},
        {"made", 2, "HEAD", false, false, made, true},
        {"made, by its leaf the same", 2, "HEAD", true, true, by_leaf, false},
        {"from a link", 2, "HEAD", false, false, from_link, true},
        {"from a link of the same number", 2, "HEAD", false, false, link_number, true},
        {"from a link, by its leaf the same", 2, "HEAD", true, true, link_by_leaf, false},
        {"found goes before leaf", 2, "HEAD", false, false, found_before_leaf, true},
        {"log-only", 2, "HEAD", false, false, log_only, true},
        {"log-only", 1, "refs/tags/a", false, false, log_only, false},
        {"expected 4 is not found", 2, "HEAD", false, false, four, true},
        {"expected 4 is not found", 2, "HEAD", false, false, four_same, true},
        {"linked", 2, "HEAD", true, true, linked, false},
        {"linked where an object was", 2, "HEAD", true, true, relinked, false},
        {"linked, expected 4 with an object", 2, "HEAD", false, false, cloned, true},
        {"linked, expected 4 with an object", 1, "refs/tags/a", false, false, cloned, false},
        {"linked, expected 4 with a link", 2, "HEAD", true, true, cloned_link, false},
        {"deleted", 2, "HEAD", true, false, deletion(0), false},
        {"deleted where an object was", 2, "HEAD", true, false, found(deletion(0), object(1)), false},
    };
    for (const Case &c : cases) {
        Store s;
        s.setting = c.setting;
        s.mode = 1;
        s.entries = {{c.name, {}, 0, FREE}, {"OTHER", {}, 0, FREE}};
        s.rows = {c.row};
        s.rows[0].force = c.force;
        take_locks(s);
        s.lines.assign(1024, {1, 0, 1, 1, 0});
        if (c.has_lines)
            s.lines[500].name = 0;
        taken_for(!c.due, encode(s), std::string(c.what) + ", on a full log");
        s.lines.pop_back();
        taken_for(true, encode(s), std::string(c.what) + ", with room for a line");
    }
}

void test_rules()
{
    test_header_fields();
    test_counts();
    test_unused();
    test_name_rules();
    test_value_rules();
    test_line_rules();
    test_row_fields();
    test_expected_rules();
    test_parents();
    test_lock_rules();
    test_room();
}
