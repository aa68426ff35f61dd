// Reading a packed table's text: each rule of the grammar, the order of the refusals, and what a text puts in the place of the
// table.
#include "packed_text.h"
#include "samples.h"
#include "tests.h"
#include "text_samples.h"
#include "world.h"

using namespace texts;

static const std::string A = "refs/heads/a", B = "refs/heads/b", C = "refs/heads/c"; // as they rise

// The archive reads the text in a store, and leaves this one.
static void reads(const Store &before, const std::string &text, uint64_t refs, const Store &after, AT_CALLER)
{
    World world(before);
    world.gives(call::read_packed(text), 0, {refs}, at);
    check(world.region().holds(encode(after)), "the region after '" + text + "'", at);
}

// So many refs are read in a store without names.
static void is_read(const std::string &text, uint64_t refs, AT_CALLER)
{
    World world;
    world.gives(call::read_packed(text), 0, {refs}, at);
}

// The text is refused with 27 at this line. No byte of the region changes, which a world sees to, as it does with all refusals.
static void is_malformed(const std::string &text, uint64_t line, AT_CALLER)
{
    for (const Store &store : {Store{}, shelves()}) {
        World world(store);
        world.gives(call::read_packed(text), 27, {line}, at);
    }
}

// ---- the examples of the document

static void test_examples()
{
    const Store before = shelves();
    reads(before, text_of_shelves(), 3, before);
    Store after = before;
    after.entries[1].packed = 0;
    after.entries.push_back({"refs/tags/2026-12", {}, 3, FREE});
    reads(before, text_by_git(), 3, after);

    World world(before);
    world.gives(call::read_packed(text_by_git()), 0, {3});
    world.gives(call::read_name(1), 0, {OBJECT, 12, PLACE_LOOSE});
    world.gives(call::read_name(5), 0, {OBJECT, 3, PLACE_PACKED});
    const std::string text = ref(255, "refs/heads/aisle-10") + ref(65537, "refs/tags/2026-11") + ref(3, "refs/tags/2026-12");
    world.gives(call::write_packed(std::string(text.size(), 'x')), 0, {text.size()});
    check(world.buffer() == text, "the three ref lines");

    const std::string upper = "00000000000000000000000000000000000000FF refs/heads/aisle-10\n";
    const std::string above = "0000000000000000000000010000000000000007 refs/tags/2026-13\n";
    is_malformed(HEADER + upper + ref(65537, "refs/tags/2026-11"), 2);
    is_malformed(text_by_git() + above, 6);
    is_malformed(text_by_git() + ref(3, "refs/tags/2026-12"), 6);
    world.gives(call::read_packed(text_by_git() + ref(0, "refs/tags/2026-13")), 21);
    world.gives(call::read_packed(text_by_git() + ref(4, "refs/worktree/a")), 21);
}

// ---- the grammar

static void test_lines()
{
    is_read("", 0);
    is_read(ref(1, A), 1);
    is_read(ref(1, A) + ref(2, B), 2);
    for (const char *text : {"\n", "\n\n", " \n", "x\n", "0\n", "\r\n", "\t\n"})
        is_malformed(text, 1);
    is_malformed(std::string("\0", 1), 1);
    is_malformed(std::string("\0\n", 2), 1);
    is_malformed("\n" + ref(1, A), 1);
    is_malformed(ref(1, A) + "\n", 2);
    is_malformed(ref(1, A) + "\n" + ref(2, B), 2);
    is_malformed(HEADER + "\n", 2);
}

// The line feed of the last line is asked for, whatever the line is.
static void test_line_feeds()
{
    auto without_feed = [](std::string text) { return text.substr(0, text.size() - 1); };
    is_malformed(without_feed(ref(1, A)), 1);
    is_malformed(without_feed(ref(1, A) + ref(2, B)), 2);
    is_malformed(without_feed(ref(1, A) + peeled()), 2);
    is_malformed(without_feed(ref(1, A) + "# last\n"), 2);
    is_malformed("#", 1);
    is_malformed(HEADER + "#", 2);
    is_malformed("^", 1);
    is_malformed(ref(1, A) + "x", 2);
    is_malformed(ref(1, A) + " ", 2);
    is_malformed(std::string(100, '0'), 1);
    is_malformed(without_feed(ref(0, "HEAD")), 1); // 27 before 21
    is_read(ref(1, A) + "# last\n", 1);
    is_read(ref(1, A) + "#\n", 1);
    is_read(ref(1, A) + peeled(), 1);
}

// Digits, the space and the end of a name: one byte at a time.
static void test_ref_lines()
{
    const std::string digits = std::string(39, '0') + "1";
    is_read(digits + " " + A + "\n", 1);
    for (const char *text : {"  refs/heads/a\n", " refs/heads/a \n", "refs/heads/a\n", "\trefs/heads/a\n", " \n", "\n", "",
                             " refs/heads/a\r\n", " refs/heads/a\t\n", " refs/heads/a x\n", " refs/heads/a\x01\n",
                             " refs/heads/a\\\n", " refs/heads/\xc3\xa4\n"})
        is_malformed(digits + text, 1);
    is_malformed(digits + " " + A + std::string("\0\n", 2), 1);
    for (size_t size : {0, 1, 15, 16, 24, 25, 38, 39, 41, 42, 64}) {
        std::string other(size, '0');
        if (size > 0)
            other.back() = '1';
        is_malformed(other + " " + A + "\n", 1);
    }
    for (char digit : std::string("ABCDEFGgxX:/`@ +-"))
        for (size_t at : {24, 31, 39}) {
            std::string other = digits;
            other[at] = digit;
            is_malformed(other + " " + A + "\n", 1);
        }
    is_malformed("0x" + digits.substr(2) + " " + A + "\n", 1);
    is_malformed(" " + ref(1, A), 1);
}

// The first 24 digits are zeros: each of them is looked at, and above 2^64-1 there is no object.
static void test_zeros()
{
    for (size_t at = 0; at < 40; at++)
        for (char digit : std::string("123456789abcdef")) {
            std::string digits(40, '0');
            digits[at] = digit;
            if (at < 24)
                is_malformed(digits + " " + A + "\n", 1);
            else
                is_read(digits + " " + A + "\n", 1);
        }
    Store largest;
    largest.entries = {{A, {}, ~uint64_t(0), FREE}};
    reads(Store{}, std::string(24, '0') + std::string(16, 'f') + " " + A + "\n", 1, largest);
    is_malformed(std::string(23, '0') + "1" + std::string(16, '0') + " " + A + "\n", 1); // 2^64
    is_malformed(std::string(40, 'f') + " " + A + "\n", 1);
}

// A name is one of SPEC.md. Bytes that are none make the line malformed, and not a bad name.
static void test_names_of_lines()
{
    for (const char *name : {"refs/a", "refs/heads/a.b", "refs/a./b", "refs/heads/a.lockb", "refs/bisect", "refs/bisectx/a",
                             "refs/rewrittenx", "refs/A_-.b"})
        is_read(ref(1, name), 1);
    is_read(ref(1, "refs/" + std::string(59, 'x')), 1);
    is_malformed(ref(1, "refs/" + std::string(60, 'x')), 1);
    is_malformed(ref(1, "refs/" + std::string(300, 'x')), 1);
    is_malformed(ref(1, "refs/" + std::string(59 + 65536, 'x')), 1);
    for (const char *name : {"", "refs", "refs/", "refs//a", "refs/a/", "/refs/a", "refs/a..b", "refs/a.", "refs/.a",
                             "refs/a.lock", "refs/a.lock/b", "head", "Head", "HEAD1", "_HEAD", "refs/a b", "refs/a~", "refs/a^",
                             "refs/a:", "refs/a?", "refs/a*", "refs/a[", "refs/@{", "refs/#", "#", "^"})
        is_malformed(ref(1, name), 1);
}

// ---- comments and peeled lines

static void test_comments()
{
    const std::string odd = "#" + std::string("\0\r\t ^\xff", 6) + "\n";
    const std::string wide = "#" + std::string(70000, 'x') + "\n";
    for (const std::string &comment : {std::string("#\n"), HEADER, odd, wide, "#" + ref(1, A), std::string("##\n")}) {
        is_read(comment, 0);
        is_read(comment + comment, 0);
        is_read(comment + ref(1, A), 1);
        is_read(ref(1, A) + comment, 1);
        is_read(ref(1, A) + comment + ref(2, B), 2);
        is_read(ref(1, A) + peeled() + comment + comment + ref(2, B) + peeled(), 2);
        is_malformed(" " + comment, 1);
        is_malformed(ref(1, B) + comment + ref(2, A), 3); // a comment makes no new beginning
    }
}

static void test_peeled()
{
    is_read(ref(1, A) + peeled('0') + ref(2, B) + peeled('f'), 2);
    is_read(ref(1, A) + "^0123456789abcdef0123456789abcdef01234567\n", 1);
    is_malformed(peeled(), 1);
    is_malformed(HEADER + peeled(), 2);
    is_malformed(ref(1, A) + peeled() + peeled(), 3);
    is_malformed(ref(1, A) + HEADER + peeled(), 3);
    is_malformed(ref(1, A) + peeled() + HEADER + peeled(), 4);
    is_malformed(ref(1, B) + peeled() + ref(2, A), 3); // a peeled line makes none either
    is_malformed(ref(1, A) + peeled() + ref(2, A), 3);
    for (size_t size : {0, 1, 16, 24, 38, 39, 41, 42, 80})
        is_malformed(ref(1, A) + "^" + std::string(size, '7') + "\n", 2);
    for (size_t at = 1; at <= 40; at++)
        for (char digit : std::string("AFgG ^\r:/`")) {
            std::string other = peeled();
            other[at] = digit;
            is_malformed(ref(1, A) + other, 2);
        }
    is_malformed(ref(1, A) + " " + peeled(), 2);
    is_malformed(ref(1, A) + "^" + ref(1, B), 2);
    // It says nothing of the object: the value is the ref line's.
    Store after;
    after.entries = {{A, {}, 9, FREE}};
    reads(Store{}, ref(9, A) + peeled(), 1, after);
}

// ---- the order of names

static void test_rising()
{
    const std::vector<std::string> rising = {"refs/-",   "refs/0",   "refs/A",     "refs/_",  "refs/a",    "refs/a-b", "refs/a.b",
                                             "refs/a/b", "refs/a/c", "refs/a/c/d", "refs/a0", "refs/aa/b", "refs/b"};
    for (size_t x = 0; x < rising.size(); x++)
        for (size_t y = 0; y < rising.size(); y++) {
            const std::string text = ref(1, rising[x]) + ref(2, rising[y]);
            x < y ? is_read(text, 2) : is_malformed(text, 2);
        }
    // Each is compared with the ref line before it, and that with the one before.
    is_malformed(ref(1, B) + ref(2, C) + ref(3, A), 3);
    is_malformed(ref(1, A) + ref(2, C) + ref(3, B) + ref(4, C), 3);
    is_malformed(ref(1, A) + ref(1, A), 2); // twice the same, value too
    is_malformed(ref(1, A) + ref(2, B) + ref(3, A), 3);
    const std::string name = "refs/" + std::string(59, 'm');
    for (size_t at = 5; at < 64; at++) {
        std::string less = name, more = name;
        less[at] = 'l';
        more[at] = 'n';
        is_read(ref(1, less) + ref(2, name) + ref(3, more), 3);
        is_malformed(ref(1, name) + ref(2, less), 2);
        is_malformed(ref(1, more) + ref(2, name), 2);
    }
}

// Lines are counted from 1, whatever they are.
static void test_line_numbers()
{
    World world; // with room for all the names
    std::string text;
    uint64_t lines = 0;
    for (size_t n = 0; n < 256; n++) {
        world.gives(call::read_packed(text + "x\n"), 27, {lines + 1});
        world.gives(call::read_packed(text + "x"), 27, {lines + 1});
        text += ref(n + 1, wide_name(n));
        lines++;
        if (n % 3 == 0) {
            text += peeled();
            lines++;
        }
        for (size_t more = n % 4; more > 1; more--) {
            text += "# " + std::to_string(more) + "\n";
            lines++;
        }
    }
    is_read(text, 256);
    world.gives(call::read_packed(text + "\n\n\n"), 27, {lines + 1});
    std::string many; // more lines than 16 bits count
    for (size_t n = 0; n < 65536 + 3; n++)
        many += "#\n";
    is_read(many, 0);
    is_malformed(many + "x\n" + ref(1, A), 65536 + 4);
}

// ---- the order of refusals

// 256 names are held: one has a packed value, one a loose one.
static Store full()
{
    Store s = plain(256);
    s.entries[7].packed = 70;
    s.entries[200].loose = object(4);
    return s;
}

static void test_bad_loads()
{
    World world(shelves());
    for (const char *name : {"HEAD", "FETCH_HEAD", "refs/bisect/a", "refs/worktree/a", "refs/rewritten/a"}) {
        world.gives(call::read_packed(ref(1, name)), 21);
        world.gives(call::read_packed(ref(0, name)), 21);
        world.gives(call::read_packed(HEADER + ref(1, name) + "x"), 21); // an earlier line than the malformed one
    }
    world.gives(call::read_packed(ref(0, A)), 21);
    world.gives(call::read_packed(ref(1, A) + ref(0, B)), 21);
    world.gives(call::read_packed(ref(0, A) + ref(1, A)), 21);
    world.gives(call::read_packed("x\n" + ref(0, A)), 27, {1});
    // In one line the form and the order of names come first.
    world.gives(call::read_packed(ref(1, B) + ref(0, A)), 27, {2});
    world.gives(call::read_packed(ref(1, B) + ref(0, B)), 27, {2});
    world.gives(call::read_packed(ref(1, A) + ref(1, "HEAD")), 27, {2});
    world.gives(call::read_packed(ref(1, "refs/x") + ref(1, "refs/worktree/a")), 27, {2});
    world.gives(call::read_packed(ref(0, "refs/a..b")), 27, {1});
    world.gives(call::read_packed(ref(0, "HEAD ")), 27, {1});
}

static void test_names_full()
{
    World world(full());
    world.gives(call::read_packed(ref(1, "refs/heads/256")), 19);
    world.gives(call::read_packed(ref(1, "refs/a")), 19);
    // 21 comes before 19 in one line, and 27 before both.
    world.gives(call::read_packed(ref(0, "refs/a")), 21);
    world.gives(call::read_packed(ref(1, "refs/worktree/a")), 21);
    world.gives(call::read_packed(ref(1, "ORIG_HEAD")), 21);
    world.gives(call::read_packed(ref(1, "refs/heads/7") + ref(1, "refs/a")), 27, {2});
    world.gives(call::read_packed(ref(1, "refs/a ")), 27, {1});
    // The first line at fault decides.
    world.gives(call::read_packed(ref(1, "refs/a") + ref(0, "refs/b")), 19);
    world.gives(call::read_packed(ref(1, "refs/a") + "x\n"), 19);
    world.gives(call::read_packed(ref(1, "refs/a") + ref(1, "refs/a")), 19);
    world.gives(call::read_packed(ref(0, "refs/a") + ref(1, "refs/b")), 21);
    world.gives(call::read_packed("# all is well\nx\n" + ref(1, "refs/b")), 27, {2});
    // Names that are known need no room.
    world.gives(call::read_packed(ref(5, "refs/heads/0") + ref(6, "refs/heads/255")), 0, {2});
    world.gives(call::read_packed(""), 0, {0});
}

// The names that earlier lines added count: with room for k new names the k-th is added and the next is not.
static void test_room_for_names()
{
    for (size_t room : {0, 1, 2, 3, 100, 255, 256}) {
        const Store store = plain(256 - room);
        std::string text;
        for (size_t n = 0; n < room; n++)
            text += ref(n + 1, "refs/a/" + wide_name(n).substr(61));
        World world(store);
        world.gives(call::read_packed(text + ref(9, "refs/b")), 19);
        world.gives(call::read_packed(text + ref(9, "refs/b") + "x"), 19);
        world.gives(call::read_packed(text + "x" + ref(9, "refs/b")), 27, {room + 1});
        world.gives(call::read_packed(text + ref(0, "refs/b")), 21);
        world.gives(call::read_packed(text), 0, {room});
        check(world.store().entries.size() == 256, "256 names are held");
        world.gives(call::read_packed(text), 0, {room}); // now they are known
        world.gives(call::read_packed(text + ref(9, "refs/b")), 19);
    }
}

// With 15 nothing of the text is looked at.
static void test_while_prepared()
{
    for (const Store &store : {prepared(), prepared_in(2), unopened(), nested_prepared()}) {
        World world(store);
        for (const std::string &text : {std::string(), std::string("x"), ref(1, A), ref(0, A), HEADER})
            world.gives(call::read_packed(text), 15);
        world.agrees(call::rollback());
        world.gives(call::read_packed("x"), 27, {1});
        world.gives(call::read_packed(ref(1, A)), 0, {1});
    }
    Store none = marked(); // prepared with no rows
    none.mode = 1;
    World world(none);
    world.gives(call::read_packed(""), 15);
}

// ---- what is put in the place of the table

// Names keep their numbers, and new ones follow in line order.
static void test_added()
{
    Store before, after;
    before.entries = {{"HEAD", link(1), 0, FREE}, {C, {}, 3, FREE}};
    after = before;
    after.entries[1].packed = 30;
    after.entries.push_back({A, {}, 10, FREE});
    after.entries.push_back({B, {}, 20, FREE});
    after.entries.push_back({"refs/tags/x", {}, 40, FREE});
    reads(before, ref(10, A) + ref(20, B) + peeled() + ref(30, C) + HEADER + ref(40, "refs/tags/x"), 4, after);
}

// All but the packed values and the new names stays: values, locks of both kinds, the log, the setting.
static void test_rest_stays()
{
    for (Store before : {busy(), nested(), full(), shelves()}) {
        for (Entry &entry : before.entries)
            entry.lock = FOREIGN;
        before.packed_lock = FOREIGN;
        Store after = before;
        for (Entry &entry : after.entries)
            entry.packed = 0;
        reads(before, "", 0, after);
        reads(before, HEADER, 0, after);
        after.entries[1].packed = 77;
        reads(before, ref(77, before.entries[1].name), 1, after);
    }
    // A packed value may lie beneath a loose one, and above.
    Store before = nested(), after = before;
    for (Entry &entry : after.entries)
        entry.packed = 0;
    after.entries[0].packed = 1;
    after.entries[1].packed = 2;
    after.entries.push_back({"refs/heads/a/b/c", {}, 3, FREE});
    reads(before, ref(1, "refs/heads/a") + ref(2, "refs/heads/a/b") + ref(3, "refs/heads/a/b/c"), 3, after);
}

// What was written is read: in the same store nothing changes, in others the tables become the same.
static void test_round_trips()
{
    const std::vector<Store> stores = {Store{}, shelves(), busy(), nested(), widest(), widest(5), full(), plain(3)};
    for (const Store &from : stores) {
        const std::string text = packed_text::text_of(from);
        World same(from);
        same.gives(call::write_packed(std::string(text.size(), 'x')), 0, {text.size()});
        const std::string written = same.buffer();
        same.agrees(call::read_packed(written));
        check(same.number() == 0 && same.region().holds(encode(from)), "reading what was written changes the region");
        for (const Store &to : stores) {
            World world(to);
            const Answer given = world.agrees(call::read_packed(written));
            check(given.number == 0 || given.number == 19, "what was written is refused");
            world.agrees(call::write_packed(std::string(written.size(), 'x')));
            check(given.number != 0 || world.buffer() == written, "writing what was read gives another text");
        }
    }
}

void test_packed_read()
{
    test_examples();
    test_lines();
    test_line_feeds();
    test_ref_lines();
    test_zeros();
    test_names_of_lines();
    test_comments();
    test_peeled();
    test_rising();
    test_line_numbers();
    test_bad_loads();
    test_names_full();
    test_room_for_names();
    test_while_prepared();
    test_added();
    test_rest_stays();
    test_round_trips();
}
