// 25 and 21: names above and beneath others. Each case in which prepare refuses a row for them and a load its value, what is done
// close to these, and which refusal comes first.
#include "committing.h"
#include "tests.h"

using namespace writes;

// The names of a site here, and the numbers that they get.
enum : uint16_t { A, A_B, A_B_C, A_D, AB, HEAD, TAG, X, X_Y };
static const char *const SITE[] = {"refs/heads/a",  "refs/heads/a/b", "refs/heads/a/b/c", "refs/heads/a/d", "refs/heads/ab",
                                   "HEAD",          "refs/tags/t",    "refs/bisect/x",    "refs/bisect/x/y"};

// The first of each lies above the second.
static const std::pair<uint16_t, uint16_t> PAIRS[] = {{A, A_B}, {A, A_B_C}, {A, A_D}, {A_B, A_B_C}, {X, X_Y}};

// A loose value of each kind.
static const Value VALUES[] = {object(5), link(TAG), {BROKEN, 0}};

static const uint8_t MODES[] = {1, 2, 3};

using Values = std::vector<std::pair<uint16_t, Value>>;
using Objects = std::vector<std::pair<uint16_t, uint64_t>>;

// A site that calls made, with these loose values and these packed ones. No name gets log lines.
static Store site(const Values &values, const Objects &objects = {})
{
    World world(uint8_t(0));
    for (const char *name : SITE)
        world.agrees(call::add_name(name));
    for (const auto &[name, value] : values)
        world.gives(call::load_loose(name, value.kind, value.number), 0);
    for (const auto &[name, number] : objects)
        world.gives(call::load_packed(name, OBJECT, number), 0);
    return world.store();
}

static Edit to_object(uint16_t name) { return updating(name, object(7)); }
static Edit to_link(uint16_t name) { return updating(name, link(HEAD)); }

// Edits of every kind, most of which expect something that is not there.
static std::vector<Edit> every_edit(uint16_t name)
{
    std::vector<Edit> edits;
    for (const Edit &edit : {to_object(name), to_link(name), updating(name, link(name)), deleting(name)})
        for (const Edit &made : {edit, through(edit), log_only(edit), expecting(edit, MUST_EXIST), expecting(edit, MUST_NOT_EXIST),
                                 expecting(edit, MUST_EXIST_AND_MATCH, object(9)), expecting(edit, EXISTING_MUST_MATCH, object(9))})
            edits.push_back(made);
    return edits;
}

// ---- a loose value above

// Whatever the row does, writes and expects, and whatever is packed.
static void test_above()
{
    for (const Value &value : VALUES)
        for (const auto &[above, name] : PAIRS) {
            std::vector<Store> stores = {site({{above, value}})};
            if (name != X_Y) // which is not packable
                stores.push_back(site({{above, value}}, {{name, 7}}));
            for (const Store &store : stores) {
                World world(store);
                for (uint8_t mode : MODES)
                    for (const Edit &edit : every_edit(name))
                        world.gives(call::prepare(write_list({edit}), mode), 25, {name});
            }
        }
}

// The name that has the value is edited like any other, and so are names that only begin with the same letters.
static void test_others()
{
    const Value head = link(HEAD), seven = object(7);
    for (const Value &value : VALUES) {
        const Store store = site({{A, value}});
        for (uint8_t mode : MODES) {
            commits(store, {to_link(A)}, mode, {loose(A, head)});
            commits(store, {deleting(A)}, mode, {no_loose(A)});
            commits(store, {to_link(AB), to_link(TAG)}, mode, {loose(AB, head), loose(TAG, head)});
            commits(store, {deleting(AB), log_only(to_object(TAG))}, mode, {});
        }
        commits(store, {to_object(AB), to_object(A)}, 1, {loose(AB, seven), loose(A, seven)});
    }
}

// ---- a loose value beneath

static void test_beneath_written()
{
    for (const Value &value : VALUES)
        for (const auto &[name, beneath] : PAIRS) {
            const Store store = site({{beneath, value}});
            for (uint8_t mode : MODES) {
                for (const Edit &edit : {to_link(name), updating(name, link(name)), expecting(to_link(name), MUST_EXIST)})
                    refuses(store, {edit}, mode, 25, {name});
                // What is direct is not written loose. No row of a name under refs/bisect/ is.
                if (mode != 3 || name == X)
                    for (const Edit &edit : {to_object(name), through(to_object(name)), expecting(to_object(name), MUST_EXIST)})
                        refuses(store, {edit}, mode, 25, {name});
            }
        }
}

// Rows that write no loose value do not mind: direct ones, deletes, those of the log only.
static void test_beneath_passed()
{
    for (const Value &value : VALUES)
        for (uint16_t beneath : {A_B, A_B_C}) {
            const Store store = site({{beneath, value}});
            commits(store, {to_object(A)}, 3, {packed({{A, 7}})});
            for (uint8_t mode : MODES) {
                commits(store, {deleting(A)}, mode, {});
                for (const Edit &edit : {to_object(A), to_link(A), deleting(A)})
                    commits(store, {log_only(edit)}, mode, {});
            }
        }
    // A log-only row still writes its lines.
    Store store = site({{A_B, object(5)}});
    store.setting = 1;
    commits(store, {log_only(to_object(A))}, 1, {line(A, 0, 7)});
}

// What is packed under the name itself is what the row finds: the same object is not written, another one would be.
static void test_beneath_unchanged()
{
    for (const Value &value : VALUES) {
        const Store store = site({{A_B, value}}, {{A, 5}});
        const Edit same = updating(A, object(5));
        commits(store, {same}, 1, {});
        for (uint8_t mode : {2, 3})
            commits(store, {same}, mode, {packed({{A, 5}})});
        for (uint8_t mode : {1, 2})
            refuses(store, {to_object(A)}, mode, 25, {A});
        commits(store, {to_object(A)}, 3, {packed({{A, 7}})});
        for (uint8_t mode : MODES) {
            refuses(store, {to_link(A)}, mode, 25, {A});
            commits(store, {deleting(A)}, mode, {packed({{A, 0}})});
        }
    }
}

// ---- two rows

// Both would write: the later one is refused, whichever it is, and whatever stands between them.
static void test_rows()
{
    const Store store = site({});
    for (const auto &[above, beneath] : PAIRS)
        for (uint8_t mode : MODES) {
            refuses(store, {to_link(above), to_link(beneath)}, mode, 25, {beneath});
            refuses(store, {to_link(beneath), to_link(above)}, mode, 25, {above});
            refuses(store, {to_link(beneath), to_link(TAG), deleting(HEAD), to_link(above)}, mode, 25, {above});
            if (mode == 3 && above != X)
                continue;
            refuses(store, {to_object(above), to_object(beneath)}, mode, 25, {beneath});
            refuses(store, {to_object(beneath), to_link(above)}, mode, 25, {above});
        }
    // The first of them that is refused decides.
    refuses(store, {to_object(A), to_object(A_D), to_object(A_B)}, 1, 25, {A_D});
    refuses(store, {to_object(A_B_C), to_object(A_D), to_object(A), to_object(A_B)}, 1, 25, {A});
    // Side by side they are no matter.
    commits(store, {to_object(A_B_C), to_object(A_D), to_object(AB)}, 1,
            {loose(A_B_C, object(7)), loose(A_D, object(7)), loose(AB, object(7))});
}

// One of the two writes no loose value.
static void test_rows_passed()
{
    const Store store = site({});
    const Value seven = object(7), head = link(HEAD);
    commits(store, {to_object(A), log_only(to_object(A_B))}, 1, {loose(A, seven)});
    commits(store, {log_only(to_link(A)), to_object(A_B)}, 1, {loose(A_B, seven)});
    commits(store, {deleting(A), to_object(A_B)}, 1, {loose(A_B, seven)});
    commits(store, {to_object(A_B), deleting(A)}, 1, {loose(A_B, seven)});
    commits(store, {to_object(A), deleting(A_B), log_only(deleting(A_D))}, 1, {loose(A, seven)});
    // Direct rows: objects in mode 3.
    commits(store, {to_object(A), to_object(A_B), to_object(A_B_C)}, 3, {packed({{A, 7}, {A_B, 7}, {A_B_C, 7}})});
    commits(store, {to_object(A), to_link(A_B)}, 3, {loose(A_B, head), packed({{A, 7}})});
    commits(store, {to_link(A), to_object(A_B)}, 3, {loose(A, head), packed({{A_B, 7}})});
    commits(store, {to_object(A_B), to_link(A)}, 3, {loose(A, head), packed({{A_B, 7}})});
    // A row that changes nothing.
    const Store five = site({}, {{A, 5}});
    const Edit same = updating(A, object(5));
    commits(five, {same, to_object(A_B)}, 1, {loose(A_B, seven)});
    commits(five, {to_object(A_B), same}, 2, {loose(A_B, seven), packed({{A_B, 7}, {A, 5}})});
    commits(five, {deleting(A), to_object(A_B)}, 1, {loose(A_B, seven), packed({{A, 0}})});
    refuses(five, {to_object(A), to_object(A_B)}, 1, 25, {A_B});
}

// ---- values before the transaction

// What another row would remove is there still.
static void test_before()
{
    for (const Value &value : VALUES) {
        const Store above = site({{A, value}}), beneath = site({{A_B, value}});
        for (uint8_t mode : MODES) {
            refuses(above, {deleting(A), to_object(A_B)}, mode, 25, {A_B});
            refuses(above, {to_object(A_B), deleting(A)}, mode, 25, {A_B});
            refuses(above, {to_object(A), deleting(A_B)}, mode, 25, {A_B});
            refuses(beneath, {deleting(A_B), to_link(A)}, mode, 25, {A});
            refuses(beneath, {to_link(A), deleting(A_B)}, mode, 25, {A});
        }
        commits(beneath, {deleting(A_B), to_object(A)}, 3, {packed({{A, 7}}), no_loose(A_B)});
        commits(beneath, {to_object(A_B), to_object(A)}, 3, {packed({{A_B, 7}, {A, 7}}), no_loose(A_B)});
    }
}

// Prepares the edits in mode 1 and makes their writes, of which there are so many.
static void moves(World &world, const std::vector<Edit> &edits, uint64_t writes, AT_CALLER)
{
    world.gives(call::prepare(write_list(edits), 1), 0, {edits.size()}, at);
    world.gives(call::commit(1, ~uint64_t(0)), 0, {writes}, at);
}

static void stands_back(World &world, const Edit &edit, AT_CALLER)
{
    world.gives(call::prepare(write_list({edit}), 1), 25, {edit.name}, at);
}

// A name makes room for one beneath it, and the other way round, in two transactions.
static void test_two_transactions()
{
    World world(site({{A, object(5)}}));
    stands_back(world, to_object(A_B));
    moves(world, {deleting(A)}, 1);
    moves(world, {to_object(A_B)}, 1);
    world.gives(call::read_name(A), 0, {NONE, 0, PLACE_ABSENT});
    world.gives(call::read_name(A_B), 0, {OBJECT, 7, PLACE_LOOSE});
    stands_back(world, to_object(A));
    moves(world, {deleting(A_B)}, 1);
    moves(world, {to_object(A)}, 1);
    world.gives(call::read_name(A), 0, {OBJECT, 7, PLACE_LOOSE});
    stands_back(world, deleting(A_B));
}

// A commit that stops before its last write leaves the value that is in the way.
static void test_stopped()
{
    World world(site({{A, object(5)}}, {{A, 3}}));
    for (uint64_t allowance : {0, 1}) {
        world.gives(call::prepare(write_list({deleting(A)}), 1), 0, {1});
        world.gives(call::commit(0, allowance), 17, {allowance});
        stands_back(world, to_object(A_B));
    }
    moves(world, {deleting(A)}, 1);
    moves(world, {to_object(A_B)}, 1);
}

// ---- loose above packed

// A name gets a packed value in mode 3, and then one above it a loose value. Both read what they have.
static Store loose_above_packed()
{
    World world(site({}));
    world.gives(call::prepare(write_list({to_object(A_B)}), 3), 0, {1});
    world.gives(call::commit(0, ~uint64_t(0)), 0, {1});
    moves(world, {updating(A, object(6))}, 1);
    world.gives(call::read_name(A), 0, {OBJECT, 6, PLACE_LOOSE});
    world.gives(call::read_name(A_B), 0, {OBJECT, 7, PLACE_PACKED});
    return world.store();
}

// Every row of the lower name is refused until the loose value is gone: deleted, or taken away, or packed as well.
static void test_loose_above_packed()
{
    const Store store = loose_above_packed();
    World deleted(store), taken_away(store), packed_too(store);
    for (uint8_t mode : MODES)
        for (const Edit &edit : every_edit(A_B))
            deleted.gives(call::prepare(write_list({edit}), mode), 25, {A_B});
    moves(deleted, {deleting(A)}, 1);
    taken_away.gives(call::load_loose(A, NONE, 0), 0);
    packed_too.gives(call::prepare(write_list({to_object(A)}), 3), 0, {1});
    packed_too.gives(call::commit(0, ~uint64_t(0)), 0, {2});
    for (World *world : {&deleted, &taken_away, &packed_too}) {
        moves(*world, {updating(A_B, object(8))}, 1);
        world->gives(call::read_name(A_B), 0, {OBJECT, 8, PLACE_LOOSE});
        moves(*world, {deleting(A_B)}, 2);
        world->gives(call::read_name(A_B), 0, {NONE, 0, PLACE_ABSENT});
    }
}

// ---- links

// 25 has the row's own name, where 8 has that of the edit from which the row came.
static void test_children()
{
    Store store = site({{A, object(5)}, {HEAD, link(A_B)}, {TAG, link(HEAD)}});
    for (uint8_t mode : MODES)
        for (uint16_t name : {HEAD, TAG})
            for (const Edit &edit : {to_object(name), updating(name, link(TAG)), deleting(name), log_only(to_object(name))})
                refuses(store, {through(edit)}, mode, 25, {A_B});
    store.entries[A_B].lock = FOREIGN;
    refuses(store, {through(to_object(TAG))}, 1, 25, {A_B});
    store.entries[A].loose = {};
    refuses(store, {through(to_object(TAG))}, 1, 8, {TAG});
    store.entries[A].loose = object(5);
    store.entries[HEAD].lock = FOREIGN; // whose row comes first
    refuses(store, {through(to_object(TAG))}, 1, 8, {TAG});
}

// Links to a name beneath, and to a name above; and children that would both write.
static void test_links_near()
{
    const Store down = site({{A, link(A_B)}}), up = site({{A_B, link(A)}});
    for (uint8_t mode : MODES) {
        refuses(down, {through(to_object(A))}, mode, 25, {A_B});
        refuses(down, {through(deleting(A))}, mode, 25, {A_B});
        refuses(up, {through(to_link(A_B))}, mode, 25, {A});
        commits(up, {through(deleting(A_B))}, mode, {});
    }
    refuses(up, {through(to_object(A_B))}, 2, 25, {A});
    commits(up, {through(to_object(A_B))}, 3, {packed({{A, 7}})});

    const Store store = site({{HEAD, link(A)}, {TAG, link(A_B)}});
    const Edit head = through(to_object(HEAD)), tag = through(to_object(TAG));
    refuses(store, {head, tag}, 1, 25, {A_B});
    refuses(store, {tag, head}, 1, 25, {A});
    refuses(store, {head, to_object(A_B)}, 1, 25, {A}); // the child comes after all edits
    commits(store, {log_only(head), tag}, 1, {loose(A_B, object(7))});
    commits(store, {head, tag}, 3, {packed({{A, 7}, {A_B, 7}})});
}

// ---- which refusal comes first

// In one row 25 comes before 8, and before 9 to 13.
static void test_first_in_a_row()
{
    Store above = site({{A, object(5)}}, {{A_B, 5}}), beneath = site({{A_B, object(5)}}), both = site({});
    for (const Edit &edit : every_edit(A_B))
        refuses(above, {edit}, 1, 25, {A_B});
    for (uint8_t expected : {MUST_EXIST, MUST_NOT_EXIST})
        refuses(beneath, {expecting(to_object(A), expected)}, 1, 25, {A});
    refuses(beneath, {expecting(to_object(A), MUST_EXIST_AND_MATCH, object(7))}, 1, 25, {A});
    refuses(both, {to_object(A), expecting(to_object(A_B), MUST_EXIST)}, 1, 25, {A_B});
    for (Store *store : {&above, &beneath, &both})
        for (Entry &entry : store->entries)
            entry.lock = FOREIGN;
    refuses(above, {to_object(A_B)}, 1, 25, {A_B});
    refuses(above, {expecting(deleting(A_B), MUST_NOT_EXIST)}, 1, 25, {A_B});
    refuses(beneath, {to_object(A)}, 1, 25, {A});
    refuses(beneath, {deleting(A)}, 1, 8, {A});
    both.entries[A].lock = FREE;
    refuses(both, {to_object(A), to_object(A_B)}, 1, 25, {A_B});
    refuses(both, {deleting(A), to_object(A_B)}, 1, 8, {A_B});
}

// Rows take turns: what refuses an earlier one comes first, and a list that is refused as a whole has no turns.
static void test_first_of_rows()
{
    Store store = site({{A, object(5)}, {TAG, object(5)}});
    store.entries[AB].lock = FOREIGN;
    const Edit conflict = to_object(A_B);
    const std::pair<Edit, Answer> faults[] = {
        {to_object(AB), answer(8, {AB})},
        {expecting(deleting(HEAD), MUST_EXIST), answer(9, {HEAD})},
        {expecting(to_object(TAG), MUST_NOT_EXIST), answer(10, {TAG, OBJECT, 5, OBJECT, 7})},
        {expecting(to_object(HEAD), MUST_EXIST), answer(11, {HEAD, OBJECT, 0})},
        {expecting(deleting(TAG), EXISTING_MUST_MATCH, object(6)), answer(12, {TAG, OBJECT, 6, OBJECT, 5})},
        {expecting(deleting(TAG), MUST_NOT_EXIST), answer(13, {TAG})},
    };
    for (const auto &[edit, given] : faults) {
        World world(store);
        check(world.agrees(call::prepare(write_list({edit, conflict}), 1)) == given, "the first row at fault decides");
        world.gives(call::prepare(write_list({conflict, edit}), 1), 25, {A_B});
        check(world.agrees(call::prepare(write_list({to_object(X), edit, to_object(X_Y)}), 1)) == given, "the row between decides");
        world.gives(call::prepare(write_list({to_object(X), to_object(X_Y), edit}), 1), 25, {X_Y});
    }
}

static void test_first_of_all()
{
    Store store = site({{A, object(5)}, {HEAD, link(HEAD)}});
    const Edit conflict = to_object(A_B);
    refuses(store, {conflict}, 4, 2);
    refuses(store, {conflict, to_object(9)}, 1, 3, {9});
    refuses(store, {conflict, through(to_object(HEAD))}, 1, 4);
    refuses(store, {conflict, deleting(A_B)}, 1, 6, {A_B});
    store.setting = 2;
    store.lines.assign(MOST_LINES, {TAG, 0, 1, 1, 0});
    refuses(store, {to_object(AB), conflict}, 1, 25, {A_B});
    refuses(store, {to_object(AB)}, 1, 14);
    store.packed_lock = FOREIGN;
    refuses(store, {conflict}, 1, 7);
    refuses(store, {log_only(conflict)}, 1, 25, {A_B}); // which does not count
    World world(site({}));
    world.gives(call::prepare(write_list({to_object(A)}), 1), 0, {1});
    world.gives(call::prepare(write_list({to_object(A_B)}), 1), 15);
}

// ---- which names lie beneath others

// The first name, and one that lies beneath it or does not.
static void is_above(bool above, const std::string &first, const std::string &second)
{
    World world;
    world.gives(call::add_name(first), 0, {0});
    world.gives(call::add_name(second), 0, {1});
    world.gives(call::load_loose(0, OBJECT, 5), 0);
    world.gives(call::load_loose(1, OBJECT, 6), above ? 21 : 0);
    world.gives(call::load_loose(1, NONE, 0), 0);
    const std::string list = write_list({updating(1, link(0))});
    world.gives(call::prepare(list, 1), above ? 25 : 0, {1}); // the row's name, or the count of rows
    world.gives(call::rollback(), 0, {above ? 0u : 1u});
    world.gives(call::load_loose(0, NONE, 0), 0);
    world.gives(call::load_loose(1, BROKEN, 0), 0);
    world.gives(call::load_loose(0, LINK, 1), above ? 21 : 0);
}

static void test_names_above()
{
    const std::string a = "refs/heads/a", x51(51, 'x');
    for (const char *more : {"/b", "/b/c", "/a", "/0", "/-"})
        is_above(true, a, a + more);
    for (const char *more : {"b", "b/c", ".b", "-", "_", "0", ".b/c", "-/b"})
        is_above(false, a, a + more);
    is_above(true, "refs/heads", a);
    is_above(true, "refs/a./b", "refs/a./b/c");
    is_above(false, "refs/a", "refs/a./b");
    is_above(false, "refs/heads/b", a + "/b");
    is_above(false, "refs/a", "refs/heads/a");
    is_above(false, "HEAD", "HEADS");
    is_above(false, "HEAD", "refs/HEAD/a");
    is_above(true, "refs/heads/" + x51, "refs/heads/" + x51 + "/y"); // 62 bytes, and 64
    is_above(false, "refs/heads/" + x51, "refs/heads/" + x51 + "xy");
    is_above(false, "refs/heads/" + x51, "refs/heads/" + x51.substr(1) + "/yz");
}

// Names that come between a name and one beneath it in the order of bytes, since '-' and '.' come before '/'.
static void test_names_between()
{
    enum : uint16_t { a, a_minus, a_dot, a_beneath, a_zero };
    Store none;
    for (const char *name : {"refs/heads/a", "refs/heads/a-b", "refs/heads/a.b", "refs/heads/a/b", "refs/heads/a0"})
        none.entries.push_back({name, {}, 0, FREE});
    Store above = none;
    for (uint16_t name : {a_minus, a_dot, a_zero})
        above.entries[name].loose = object(5);
    Store beneath = above;
    above.entries[a].loose = beneath.entries[a_beneath].loose = object(5);
    refuses(above, {to_object(a_beneath)}, 1, 25, {a_beneath});
    refuses(beneath, {to_object(a)}, 1, 25, {a});
    refuses(none, {to_object(a_minus), to_object(a_dot), to_object(a_beneath), to_object(a)}, 1, 25, {a});
    refuses(none, {to_object(a), to_object(a_dot), to_object(a_zero), to_object(a_beneath)}, 1, 25, {a_beneath});
    World(above).gives(call::load_loose(a_beneath, OBJECT, 5), 21);
    World(beneath).gives(call::load_loose(a, OBJECT, 5), 21);
    commits(above, {to_object(a_minus), to_object(a), to_object(a_zero)}, 1,
            {loose(a_minus, object(7)), loose(a, object(7)), loose(a_zero, object(7))});
}

// The last of 256 names is above or beneath like the first.
static void test_last_names()
{
    Store store = plain(256);
    store.entries[255].name = "refs/heads/7/x";
    store.entries[0].name = "refs/heads/254/y";
    Store above = store, beneath = store;
    above.entries[7].loose = above.entries[254].loose = object(1);
    beneath.entries[255].loose = beneath.entries[0].loose = object(1);
    for (uint16_t name : {255, 0})
        refuses(above, {deleting(name)}, 1, 25, {name});
    for (uint16_t name : {7, 254})
        refuses(beneath, {to_object(name)}, 1, 25, {name});
    refuses(store, {to_object(255), to_object(254), to_object(7)}, 1, 25, {7});
    refuses(store, {to_object(0), to_object(7), to_object(254)}, 1, 25, {254});
    World world(above);
    for (uint64_t name : {255, 0}) {
        world.gives(call::load_loose(name, OBJECT, 9), 21);
        world.gives(call::load_packed(name, OBJECT, 9), 0);
    }
}

// ---- loads

// A value of any kind, beside one of any kind above it or beneath it. None is always loaded, and a packed value too.
static void test_loads()
{
    for (const auto &[above, beneath] : PAIRS)
        for (const Value &there : VALUES)
            for (const auto &[first, second] : {std::pair(above, beneath), std::pair(beneath, above)}) {
                World world(site({{first, there}}));
                for (const Value &value : VALUES)
                    world.gives(call::load_loose(second, value.kind, value.number), 21);
                world.gives(call::load_loose(second, NONE, 0), 0);
                world.gives(call::load_packed(second, OBJECT, 9), second == X || second == X_Y ? 21 : 0);
                for (const Value &value : VALUES) // in the place of what is there
                    world.gives(call::load_loose(first, value.kind, value.number), 0);
                world.gives(call::load_loose(first, NONE, 0), 0);
                world.gives(call::load_loose(second, there.kind, there.number), 0);
                world.gives(call::load_loose(first, there.kind, there.number), 21);
            }
}

// 15 and 3 come before 21. Locks are ignored, as by every load.
static void test_loads_refused()
{
    World world(site({{A, object(5)}}));
    world.gives(call::load_loose(A_B, LINK, 9), 3, {9});
    world.gives(call::load_loose(A_B, LINK, 65536), 3, {65536});
    world.gives(call::load_loose(65536 + A_B, OBJECT, 9), 3, {65536 + A_B});
    for (uint64_t name : {A, A_B})
        world.gives(call::place_lock_on_name(name), 0);
    world.gives(call::load_loose(A_B, OBJECT, 9), 21);
    world.gives(call::load_loose(A_B, NONE, 1), 21); // for its number
    world.gives(call::load_loose(A_B, NONE, 0), 0);
    world.gives(call::prepare(write_list({}), 1), 0, {0});
    for (uint64_t name : {A, A_B})
        for (uint64_t kind : {NONE, OBJECT, LINK, BROKEN})
            world.gives(call::load_loose(name, kind, kind == OBJECT || kind == LINK ? 1 : 0), 15);
}

void test_beneath()
{
    test_above();
    test_others();
    test_beneath_written();
    test_beneath_passed();
    test_beneath_unchanged();
    test_rows();
    test_rows_passed();
    test_before();
    test_two_transactions();
    test_stopped();
    test_loose_above_packed();
    test_children();
    test_links_near();
    test_first_in_a_row();
    test_first_of_rows();
    test_first_of_all();
    test_names_above();
    test_names_between();
    test_last_names();
    test_loads();
    test_loads_refused();
}
