// The log lines of commit: who is due one, from which object to which, and what else stands in it.
#include "committing.h"
#include "tests.h"

using namespace writes;

// One edit of name 0, in a store whose name 1 is another, and the line that is written for it, if one is.
struct Case {
    const char *what;
    uint8_t setting;
    const char *name;
    Value there;
    Edit edit;
    std::optional<Move> move;
};

// The list of one edit: its line, and then its value if there is one to write.
static void is_written(const Case &c, bool has_lines, uint16_t committer, AT_CALLER)
{
    Store store;
    store.setting = c.setting;
    store.entries = {{c.name, c.there, 0, FREE}, {"ELSE", {}, 0, FREE}};
    store.lines = {{1, 1, 2, 3, 4}};
    if (has_lines)
        store.lines.push_back({0, 5, 6, 7, 8});
    std::vector<Write> writes;
    if (c.move)
        writes.push_back(line(0, c.move->before, c.move->after, c.edit.message));
    const Value &target = c.edit.new_target;
    if (!c.edit.log_only && (target.kind == LINK || target != c.there))
        writes.push_back(loose(0, target));
    commits(store, {c.edit}, 1, writes, committer, at);
}

// From which object to which.
static void test_moves()
{
    const Edit to_2 = with_message(updating(0, object(2)), 0x0304), linked = with_message(updating(0, link(1)), 65535);
    const Value none, broken = {BROKEN, 0}, one = object(1), two = object(2), a_link = link(1), large = object(~uint64_t(0));
    const Move from_0 = {0, 2}, from_1 = {1, 2};
    const Case cases[] = {
        {"made", 1, "HEAD", none, to_2, from_0},
        {"made over a broken value", 1, "HEAD", broken, to_2, from_0},
        {"moved", 1, "HEAD", one, to_2, from_1},
        {"moved, of the log only", 1, "HEAD", one, log_only(to_2), from_1},
        {"moved back", 1, "HEAD", large, to_2, Move{~uint64_t(0), 2}},
        {"the same", 2, "HEAD", two, forced(to_2), {}},
        {"from a link", 1, "HEAD", a_link, to_2, from_0},
        {"made, expected 4 with the new object", 1, "HEAD", none, expecting(to_2, EXISTING_MUST_MATCH, two), from_0},
        {"moved, expected 3", 1, "HEAD", one, expecting(to_2, MUST_EXIST_AND_MATCH, one), from_1},
        {"linked", 2, "HEAD", none, forced(linked), {}},
        {"linked where an object is", 2, "HEAD", one, forced(linked), {}},
        {"linked, expected 4 with an object", 1, "HEAD", none, expecting(linked, EXISTING_MUST_MATCH, large),
         Move{0, ~uint64_t(0)}},
        {"linked, of the log only", 1, "HEAD", none, log_only(expecting(linked, EXISTING_MUST_MATCH, one)), Move{0, 1}},
        {"linked, expected 4 with that object", 2, "HEAD", one, expecting(linked, EXISTING_MUST_MATCH, one), {}},
        {"linked, expected 4 with a link", 2, "HEAD", none, expecting(linked, EXISTING_MUST_MATCH, a_link), {}},
    };
    for (const Case &c : cases)
        for (bool has_lines : {false, true})
            for (uint16_t committer : {1, 255, 256, 258, 65535})
                is_written(c, has_lines, committer);
}

// Which names: by the setting, by their lines, or by force. Setting 0 writes none.
static void test_logged_names()
{
    const std::pair<const char *, uint8_t> names[] = { // from which setting on
        {"HEAD", 1},        {"refs/heads/a", 1},  {"refs/remotes/a", 1}, {"refs/notes/a", 1},   {"refs/heads", 2},
        {"refs/tags/a", 2}, {"refs/bisect/a", 2}, {"refs/headsx/a", 2},  {"FETCH_HEAD", 3},     {"HEADS", 3},
    };
    const Edit edit = with_message(updating(0, object(2)), 9);
    for (const auto &[name, from] : names)
        for (uint8_t setting : {0, 1, 2}) {
            auto is = [&, name = name](bool written, const Edit &made, bool has_lines) {
                std::optional<Move> move;
                if (written)
                    move = Move{1, 2};
                is_written({name, setting, name, object(1), made, move}, has_lines, 258);
            };
            is(setting >= from && setting > 0, edit, false);
            is(setting > 0, edit, true);
            is(setting > 0, forced(edit), false);
        }
}

// An ancestor's line starts from what its chain's last row found, or expects where it found nothing.
static void test_ancestors()
{
    Store store = chain(1, {});
    const Edit edit = with_message(through(updating(0, object(9))), 77);
    commits(store, {edit}, 1, {line(0, 0, 9, 77), line(1, 0, 9, 77), loose(1, object(9))});
    commits(store, {expecting(edit, EXISTING_MUST_MATCH, object(4))}, 1,
            {line(0, 4, 9, 77), line(1, 0, 9, 77), loose(1, object(9))});
    commits(store, {expecting(edit, EXISTING_MUST_MATCH, object(9))}, 1, {line(1, 0, 9, 77), loose(1, object(9))});
    store.entries[1].packed = 6;
    commits(store, {edit}, 1, {line(0, 6, 9, 77), line(1, 6, 9, 77), loose(1, object(9))});
    commits(store, {edit}, 3, {line(0, 6, 9, 77), line(1, 6, 9, 77), packed({{1, 9}})});
    // A packed value that is not seen is none.
    commits(store, {log_only(edit)}, 3, {line(0, 0, 9, 77), line(1, 0, 9, 77)});
    // To a link: the leaf alone, and only if nothing was there.
    const Edit linked = through(expecting(updating(0, link(0)), EXISTING_MUST_MATCH, object(4)));
    store.entries[1].packed = 0;
    commits(store, {linked}, 1, {line(1, 0, 4), loose(1, link(0))});
}

// Lines come to stand behind the older ones, in the order of their rows, up to the last place of the log.
static void test_full()
{
    Store store = plain(40);
    store.lines.assign(MOST_LINES - 2, {39, 0, 1, 1, 0});
    const std::vector<Edit> two = {updating(7, object(8)), with_message(updating(3, object(4)), 65535)};
    Store after = commits(store, two, 1, {line(7, 0, 8), loose(7, object(8)), line(3, 0, 4, 65535), loose(3, object(4))}, 65535);
    check(after.lines.size() == MOST_LINES, "the log is full");
    refuses(after, {updating(5, object(1))}, 1, 14);
    after = commits(after, {deleting(39)}, 1, {no_log(39)});
    check(after.lines.size() == 2, "two lines are left");
    commits(after, {updating(5, object(1))}, 1, {line(5, 0, 1), loose(5, object(1))});
}

void test_commit_lines()
{
    test_moves();
    test_logged_names();
    test_ancestors();
    test_full();
}
