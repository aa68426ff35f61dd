// 14: the log must have room for every line that the rows are due. Whether a row is due one is seen at the edge of a full log.
#include "preparing.h"
#include "tests.h"

// The store with so many lines, all of a name that no edit has, except one of name 0 if it is to have some.
static Store with_lines(Store store, size_t lines, bool of_name_0)
{
    store.entries.push_back({"OTHER", {}, 0, FREE});
    store.lines.assign(lines, {uint16_t(store.entries.size() - 1), 0, 1, 1, 0});
    if (of_name_0)
        store.lines[lines / 2].name = 0;
    return store;
}

// Exactly so many lines are due: there is room for them and for no fewer.
static void is_due(const char *what, size_t due, const Store &store, const std::vector<Edit> &edits, uint8_t mode,
                   bool of_name_0 = false, AT_CALLER)
{
    const Call prepare = call::prepare(write_list(edits), mode);
    for (size_t room : {due, due + 1}) {
        World world(with_lines(store, MOST_LINES - room, of_name_0));
        check(prepare_and_roll_back(world, prepare, at) == 0, std::string(what) + ": there is room", at);
    }
    if (due > 0) {
        World world(with_lines(store, MOST_LINES - due + 1, of_name_0));
        world.gives(prepare, 14, {}, at);
    }
}

// One edit of one name, which is due a line or not.
struct Case {
    const char *what;
    uint8_t setting;
    const char *name;
    bool has_lines, force;
    Value there;
    Edit edit;
    bool due;
};

static void test_one_row()
{
    const Edit to_2 = updating(0, object(2)), to_1 = updating(0, object(1)), linked = updating(0, link(1));
    const Value none, broken = {BROKEN, 0}, one = object(1), a_link = link(1);
    const Edit four = expecting(to_2, EXISTING_MUST_MATCH, object(2));
    const Edit four_link = expecting(linked, EXISTING_MUST_MATCH, object(2)), matched = expecting(linked, EXISTING_MUST_MATCH, one);
    const Edit linked_again = expecting(linked, EXISTING_MUST_MATCH, link(1));
    const Case cases[] = {
        {"moved", 0, "HEAD", true, true, one, to_2, false},
        {"moved", 1, "HEAD", false, false, one, to_2, true},
        {"moved", 2, "HEAD", false, false, one, to_2, true},
        {"moved", 1, "refs/heads/a", false, false, one, to_2, true},
        {"moved", 1, "refs/remotes/a", false, false, one, to_2, true},
        {"moved", 1, "refs/notes/a", false, false, one, to_2, true},
        {"moved", 1, "refs/tags/a", false, false, one, to_2, false},
        {"moved", 1, "refs/heads", false, false, one, to_2, false},
        {"moved", 1, "FETCH_HEAD", false, false, one, to_2, false},
        {"moved", 1, "refs/bisect/a", false, false, one, to_2, false},
        {"moved", 2, "refs/tags/a", false, false, one, to_2, true},
        {"moved", 2, "refs/bisect/a", false, false, one, to_2, true},
        {"moved", 2, "FETCH_HEAD", false, false, one, to_2, false},
        {"moved, with lines", 1, "refs/tags/a", true, false, one, to_2, true},
        {"moved, with lines", 2, "FETCH_HEAD", true, false, one, to_2, true},
        {"moved, with force", 1, "refs/tags/a", false, true, one, to_2, true},
        {"moved, with force", 2, "FETCH_HEAD", false, true, one, to_2, true},
        {"moved, with lines and force", 0, "refs/heads/a", true, true, one, to_2, false},
        {"the same", 2, "HEAD", true, true, one, to_1, false},
        {"the same, of the log only", 2, "HEAD", true, true, one, log_only(to_1), false},
        {"moved, of the log only", 2, "HEAD", false, false, one, log_only(to_2), true},
        {"made", 1, "HEAD", false, false, none, to_2, true},
        {"made over a broken value", 1, "HEAD", false, false, broken, to_2, true},
        {"made, not matched", 1, "HEAD", false, false, none, four, true},
        {"from a link of the same number", 1, "HEAD", false, false, a_link, to_1, true},
        {"linked", 2, "HEAD", true, true, none, linked, false},
        {"linked where an object is", 2, "HEAD", true, true, one, linked, false},
        {"linked, expected 4 with an object", 1, "HEAD", false, false, none, four_link, true},
        {"linked, expected 4 with an object", 1, "refs/tags/a", false, false, none, four_link, false},
        {"linked, expected 4 with an object", 0, "HEAD", true, true, none, four_link, false},
        {"linked, expected 4 with that object", 2, "HEAD", true, true, one, matched, false},
        {"linked, expected 4 with a link", 2, "HEAD", true, true, none, linked_again, false},
        {"linked again", 2, "HEAD", true, true, a_link, linked_again, false},
        {"deleted", 2, "HEAD", true, false, one, deleting(0), false},
        {"deleted, of the log only", 2, "HEAD", true, false, one, log_only(deleting(0)), false},
    };
    for (const Case &c : cases) {
        Store store;
        store.setting = c.setting;
        store.entries = {{c.name, c.there, 0, FREE}, {"ELSE", {}, 0, FREE}};
        Edit edit = c.edit;
        edit.force = c.force;
        for (uint8_t mode : {1, 3})
            is_due(c.what, c.due, store, {edit}, mode, c.has_lines);
    }
}

// Rows of one edit: an ancestor's line starts from its leaf-previous.
static void test_chains()
{
    Store store = marked();
    store.entries[1].loose = object(7);
    is_due("both", 2, store, {through(updating(0, object(9)))}, 1);
    is_due("neither", 0, store, {through(updating(0, object(7)))}, 1);
    is_due("both, of the log only", 2, store, {log_only(through(updating(0, object(9))))}, 1);
    is_due("deleted", 0, store, {through(deleting(0))}, 1);
    is_due("linked", 0, store, {through(updating(0, link(0)))}, 1);
    store.entries[1].name = "refs/tags/aisle";
    is_due("HEAD alone, by the setting", 1, store, {through(updating(0, object(9)))}, 1);
    store.setting = 2;
    is_due("both, by the setting", 2, store, {through(updating(0, object(9)))}, 1);
    store.setting = 0;
    is_due("neither, by the setting", 0, store, {through(updating(0, object(9)))}, 1);

    // A leaf that is not there hands up the object that it expects, but its own line starts from nothing.
    store = marked();
    is_due("both, from nothing", 2, store, {through(updating(0, object(9)))}, 1);
    const Edit four = expecting(updating(0, object(9)), EXISTING_MUST_MATCH, object(9));
    is_due("the leaf alone", 1, store, {through(four)}, 1);
    // A link is due a line on the leaf alone: its ancestors expect nothing of the kind.
    is_due("linked", 1, store, {through(expecting(updating(0, link(0)), EXISTING_MUST_MATCH, object(9)))}, 1);
}

// A packed value that is not seen is none.
static void test_packed()
{
    Store store = plain(2);
    store.entries[0].packed = 7;
    for (uint8_t mode : {1, 2, 3}) {
        is_due("the packed value again", 0, store, {updating(0, object(7))}, mode);
        is_due("the packed value, not seen", 1, store, {log_only(updating(0, object(7)))}, mode);
        is_due("the packed value, seen", 0, store, {log_only(updating(0, object(7))), deleting(1)}, mode);
    }
}

// Many rows, and deletes that make no room.
static void test_many()
{
    Store store = plain(160);
    store.setting = 1;
    std::vector<Edit> some, all;
    for (uint16_t n = 0; n < 128; n++)
        store.entries[n].loose = link(n + 32);
    for (uint16_t n = 0; n < 32; n++) {
        all.push_back(through(updating(n, object(n + 1))));
        some.push_back(n % 2 ? updating(n, object(n + 1)) : deleting(n));
    }
    is_due("160 rows", 160, store, all, 1);
    is_due("16 of 32", 16, store, some, 2);

    // A delete would remove the one line of name 0. It makes no room for another.
    store = plain(3);
    is_due("a delete beside it", 1, store, {deleting(0), updating(1, object(1))}, 1, true);
    store.lines.assign(MOST_LINES, {0, 0, 1, 1, 0});
    refuses(store, {deleting(0), updating(1, object(1))}, 1, 14);
    prepares(store, {deleting(0), updating(1, link(2))}, 1, {deletion(0), update(1, link(2))});
    store.lines.pop_back();
    prepares(store, {deleting(0), updating(1, object(1))}, 1, {deletion(0), update(1, object(1))});
}

void test_prepare_room()
{
    test_one_row();
    test_chains();
    test_packed();
    test_many();
}
