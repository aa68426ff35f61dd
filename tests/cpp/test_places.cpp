// Where a value is found: loose, packed, packed behind a broken loose one, absent, or absent behind a broken one. Reading a name
// always sees what is packed, a row only if the packed table was opened. All of it in each mode, while a transaction is prepared,
// where its commit stops, after it, and in regions that no call leaves.
#include "committing.h"
#include "tests.h"

static const uint8_t MODES[] = {1, 2, 3};
static const uint64_t ALL = ~uint64_t(0), HIGH = uint64_t(1) << 63;

// ---- the site

// What is read: kind, number and place. The places are 1 loose, 2 packed, 3 packed behind a broken loose, 4 absent, 5 absent behind
// a broken loose.
using Read = std::vector<uint64_t>;

// A name, its two values, and what is read of them with packed values seen and not.
struct Kept {
    const char *name;
    Value loose;
    uint64_t packed;
    Read seen, unseen;
};

enum : uint16_t {
    LOOSE_OBJECT,
    LOOSE_LINK,
    OBJECT_ON_PACKED,
    LINK_ON_PACKED,
    ONLY_PACKED,
    PACKED_BEHIND,
    NOTHING,
    ONLY_BROKEN,
    OTHER,
    HEAD,
};
static const uint16_t SITUATIONS = OTHER; // the names before it have one each

static const Kept KEPT[] = {
    {"refs/heads/object", {OBJECT, 5}, 0, {OBJECT, 5, 1}, {OBJECT, 5, 1}},
    {"refs/heads/link", {LINK, ONLY_PACKED}, 0, {LINK, ONLY_PACKED, 1}, {LINK, ONLY_PACKED, 1}},
    {"refs/heads/both", {OBJECT, 6}, 7, {OBJECT, 6, 1}, {OBJECT, 6, 1}},
    {"refs/heads/linked", {LINK, PACKED_BEHIND}, 8, {LINK, PACKED_BEHIND, 1}, {LINK, PACKED_BEHIND, 1}},
    {"refs/heads/packed", {}, HIGH, {OBJECT, HIGH, 2}, {NONE, 0, 4}},
    {"refs/heads/behind", {BROKEN, 0}, ALL, {OBJECT, ALL, 3}, {NONE, 0, 5}},
    {"refs/heads/nothing", {}, 0, {NONE, 0, 4}, {NONE, 0, 4}},
    {"refs/heads/broken", {BROKEN, 0}, 0, {NONE, 0, 5}, {NONE, 0, 5}},
    {"refs/heads/other", {}, 0, {NONE, 0, 4}, {NONE, 0, 4}},
    {"HEAD", {}, 0, {NONE, 0, 4}, {NONE, 0, 4}}, // which is not packable, so no row of it counts
};

static Store site()
{
    Store s;
    s.setting = 1;
    for (const Kept &kept : KEPT)
        s.entries.push_back({kept.name, kept.loose, kept.packed, FREE});
    return s;
}

static Store without_packed()
{
    Store s = site();
    for (Entry &entry : s.entries)
        entry.packed = 0;
    return s;
}

static const Read &read_of(uint16_t name, bool seen) { return seen ? KEPT[name].seen : KEPT[name].unseen; }

// ---- lists, and what is read while they are prepared

// An edit of each name that has a situation, and others behind them.
using Make = Edit (*)(uint16_t name);

static std::vector<Edit> of_each(Make make, const std::vector<Edit> &others = {})
{
    std::vector<Edit> edits;
    for (uint16_t name = 0; name < SITUATIONS; name++)
        edits.push_back(make(name));
    edits.insert(edits.end(), others.begin(), others.end());
    return edits;
}

static Edit to_object(uint16_t name) { return updating(name, object(50)); }
static Edit to_link(uint16_t name) { return updating(name, link(HEAD)); }
static Edit logged(uint16_t name) { return log_only(updating(name, object(50))); }
static Edit unlogged(uint16_t name) { return log_only(deleting(name)); }

// Names are read with packed values seen, where there are any.
static void reads_names(World &world, bool packed, AT_CALLER)
{
    for (uint16_t name = 0; name <= HEAD; name++)
        world.gives(call::read_name(name), 0, read_of(name, packed), at);
}

// Row by row, of edits that expect anything: what the row found stands in it, and where.
static void reads_rows(World &world, const std::vector<Edit> &edits, bool seen, AT_CALLER)
{
    for (size_t place = 0; place < edits.size(); place++) {
        const Edit &edit = edits[place];
        const Read &found = read_of(edit.name, seen);
        const uint64_t expected = found[0] == NONE ? ANY : MUST_EXIST_AND_MATCH;
        world.gives(call::read_row(place), 0,
                    {edit.name, edit.kind, edit.log_only, 0, 0, expected, found[0], found[1], edit.new_target.kind,
                     edit.new_target.number, 0, 0, 0, found[2]},
                    at);
    }
    world.gives(call::read_row(edits.size()), 22, {}, at);
}

// A store with packed values. The list opens the packed table, or does not, and rows see what is packed accordingly.
static void finds(const std::vector<Edit> &edits, uint8_t mode, bool opened, AT_CALLER)
{
    World world(site());
    reads_names(world, true, at);
    world.gives(call::prepare(write_list(edits), mode), 0, {edits.size()}, at);
    check(world.store().packed_lock == (opened ? OURS : FREE), "the packed table is opened or not", at);
    reads_rows(world, edits, opened, at);
    reads_names(world, true, at);
    world.gives(call::rollback(), 0, {edits.size()}, at);
    reads_names(world, true, at);
    world.gives(call::read_row(0), 22, {}, at);
}

// A row that counts opens the table for all rows, wherever it stands.
static void test_opened()
{
    for (uint8_t mode : MODES) {
        for (Make make : {to_object, to_link, deleting}) {
            finds(of_each(make), mode, true);
            for (uint16_t name = 0; name < SITUATIONS; name++)
                finds({make(name)}, mode, true);
        }
        for (Make make : {logged, unlogged})
            for (const Edit &counts : {to_object(OTHER), to_link(OTHER), deleting(OTHER)}) {
                finds(of_each(make, {counts}), mode, true);
                std::vector<Edit> edits = of_each(make);
                edits.insert(edits.begin(), counts);
                finds(edits, mode, true);
            }
    }
}

// Rows of the log only, and of names that are not packable, open nothing.
static void test_unopened()
{
    for (uint8_t mode : MODES)
        for (Make make : {logged, unlogged}) {
            finds(of_each(make), mode, false);
            finds(of_each(make, {logged(OTHER), to_object(HEAD)}), mode, false);
            for (uint16_t name = 0; name < SITUATIONS; name++)
                finds({deleting(HEAD), make(name)}, mode, false);
        }
}

// Where nothing is packed anywhere, only an update to an object opens the table, in modes 2 and 3. Nothing is seen either way.
static void test_nothing_packed()
{
    for (uint8_t mode : MODES)
        for (Make make : {to_object, to_link, deleting, logged, unlogged}) {
            const std::vector<Edit> edits = of_each(make);
            const bool opened = make == to_object && mode >= 2;
            World world(without_packed());
            reads_names(world, false);
            world.gives(call::prepare(write_list(edits), mode), 0, {edits.size()});
            check(world.store().packed_lock == (opened ? OURS : FREE), "opened without a packed value, or not");
            reads_rows(world, edits, false);
            reads_names(world, false);
        }
}

// ---- while it is prepared

struct Meanwhile {
    Call call;
    uint32_t number;
    std::vector<uint64_t> places;
};

// What others do, and what is refused. A lock that a row dropped goes to another, and so does the packed table's if it is free.
static std::vector<Meanwhile> meanwhile(const std::vector<Edit> &edits, uint8_t mode, bool opened)
{
    using namespace call;
    const uint32_t on_packed = opened ? 20 : 0, on_dropped = mode == 3 ? 20 : 0;
    return {
        {add_name("refs/heads/new"), 0, {10}},
        {add_name("HEAD"), 0, {HEAD}},
        {add_name("head"), 18, {}},
        {place_lock_on_name(10), 0, {}},
        {lift_lock_of_name(10), 0, {}},
        {place_lock_on_name(HEAD), 0, {}},
        {place_lock_on_name(ONLY_PACKED), 20, {}},
        {lift_lock_of_name(PACKED_BEHIND), 20, {}},
        {place_lock_on_name(LOOSE_OBJECT), on_dropped, {}},
        {place_lock_on_packed(), on_packed, {}},
        {lift_lock_of_packed(), on_packed, {}},
        {place_lock_on_packed(), on_packed, {}},
        {prepare(write_list(edits), mode), 15, {}},
        {prepare(write_list({deleting(OTHER)}), mode), 15, {}},
        {load_loose(ONLY_PACKED, OBJECT, 1), 15, {}},
        {load_loose(ONLY_BROKEN, NONE, 0), 15, {}},
        {load_packed(ONLY_PACKED, NONE, 0), 15, {}},
        {load_packed(NOTHING, OBJECT, 1), 15, {}},
        {commit(65536, ALL), 2, {}},
        {start(3), 2, {}},
        {name_bytes(65536), 3, {65536}},
        {read_line(ONLY_PACKED, 0), 22, {}},
        {read_name(11), 3, {11}},
        {read_row(160), 22, {}},
    };
}

// Each place stays what it is until the transaction ends. The first edit changes nothing, and drops its lock if it is not direct.
static void test_stays()
{
    for (uint8_t mode : MODES)
        for (bool opened : {false, true}) {
            std::vector<Edit> edits = of_each(logged);
            edits[LOOSE_OBJECT] = log_only(updating(LOOSE_OBJECT, object(5)));
            if (opened)
                edits.push_back(deleting(OTHER));
            World world(site());
            world.gives(call::prepare(write_list(edits), mode), 0, {edits.size()});
            for (const Meanwhile &next : meanwhile(edits, mode, opened)) {
                world.gives(next.call, next.number, next.places);
                reads_rows(world, edits, opened);
                reads_names(world, true);
            }
            world.gives(call::rollback(), 0, {edits.size()});
            reads_names(world, true);
        }
}

// ---- after it

static void commits_all(World &world, const std::vector<Edit> &edits, uint8_t mode)
{
    world.gives(call::prepare(write_list(edits), mode), 0, {edits.size()});
    check(world.agrees(call::commit(1, ALL)).number == 0, "all is written");
}

// What a commit leaves is loose; in mode 3 an object is packed, and nothing is loose.
static void test_committed()
{
    for (uint8_t mode : MODES) {
        World objects(site()), links(site()), deleted(site()), lines(site()), no_lines(site());
        commits_all(objects, of_each(to_object), mode);
        commits_all(links, of_each(to_link), mode);
        commits_all(deleted, of_each(deleting), mode);
        commits_all(lines, of_each(logged), mode);
        commits_all(no_lines, of_each(unlogged), mode);
        for (uint16_t name = 0; name < SITUATIONS; name++) {
            objects.gives(call::read_name(name), 0, {OBJECT, 50, mode == 3 ? 2u : 1u});
            links.gives(call::read_name(name), 0, {LINK, HEAD, 1});
            deleted.gives(call::read_name(name), 0, {NONE, 0, 4});
        }
        for (World *world : {&lines, &no_lines})
            reads_names(*world, true);
    }
}

// What stands under the name then: the loose value that came to be, and the packed one behind it.
static void test_behind()
{
    for (uint8_t mode : MODES) {
        World world(site());
        commits_all(world, of_each(to_object), mode);
        for (uint16_t name = 0; name < SITUATIONS; name++) {
            const uint64_t before = KEPT[name].packed, packed = mode == 1 ? before : 50;
            world.gives(call::load_loose(name, BROKEN, 0), 0);
            world.gives(call::read_name(name), 0, packed ? Read{OBJECT, packed, 3} : Read{NONE, 0, 5});
            world.gives(call::load_loose(name, NONE, 0), 0);
            world.gives(call::read_name(name), 0, packed ? Read{OBJECT, packed, 2} : Read{NONE, 0, 4});
        }
    }
}

// ---- rows that links led to

static void reads_rows_as(World &world, const std::vector<Read> &rows, AT_CALLER)
{
    for (size_t place = 0; place < rows.size(); place++)
        world.gives(call::read_row(place), 0, rows[place], at);
    world.gives(call::read_row(rows.size()), 22, {}, at);
}

// A parent found its link, which is loose. Its child has a place of its own: what is packed there is seen if the child counts.
static void test_children()
{
    for (uint8_t mode : MODES)
        for (uint16_t name : {LOOSE_OBJECT, OBJECT_ON_PACKED, ONLY_PACKED, PACKED_BEHIND, NOTHING, ONLY_BROKEN})
            for (bool counts : {false, true}) {
                Store store = site();
                store.entries[HEAD].loose = link(name);
                const Edit edit = through(counts ? to_object(HEAD) : logged(HEAD));
                const Read &found = read_of(name, counts);
                const uint64_t expected = found[0] == NONE ? ANY : MUST_EXIST_AND_MATCH;
                World world(store);
                world.gives(call::prepare(write_list({edit}), mode), 0, {2});
                reads_rows_as(world, {{HEAD, 1, 1, 0, 0, 3, LINK, name, OBJECT, 50, 0, 0, found[1], 1},
                                      {name, 1, !counts, 0, 0, expected, found[0], found[1], OBJECT, 50, 1, 0, 0, found[2]}});
                world.gives(call::read_name(HEAD), 0, {LINK, name, 1});
                world.gives(call::read_name(name), 0, KEPT[name].seen);
            }
}

// Two links, the second of them over a packed value too.
static void test_grandchildren()
{
    Store store = site();
    store.entries[HEAD].loose = link(LINK_ON_PACKED);
    for (uint8_t mode : MODES) {
        World counting(store), log(store), removed(store);
        counting.gives(call::prepare(write_list({through(to_object(HEAD))}), mode), 0, {3});
        reads_rows_as(counting, {{HEAD, 1, 1, 0, 0, 3, LINK, LINK_ON_PACKED, OBJECT, 50, 0, 0, ALL, 1},
                                 {LINK_ON_PACKED, 1, 1, 0, 0, 3, LINK, PACKED_BEHIND, OBJECT, 50, 1, 0, ALL, 1},
                                 {PACKED_BEHIND, 1, 0, 0, 0, 3, OBJECT, ALL, OBJECT, 50, 1, 1, 0, 3}});
        log.gives(call::prepare(write_list({through(logged(HEAD))}), mode), 0, {3});
        reads_rows_as(log, {{HEAD, 1, 1, 0, 0, 3, LINK, LINK_ON_PACKED, OBJECT, 50, 0, 0, 0, 1},
                            {LINK_ON_PACKED, 1, 1, 0, 0, 3, LINK, PACKED_BEHIND, OBJECT, 50, 1, 0, 0, 1},
                            {PACKED_BEHIND, 1, 1, 0, 0, 0, NONE, 0, OBJECT, 50, 1, 1, 0, 5}});
        removed.gives(call::prepare(write_list({through(deleting(LOOSE_LINK))}), mode), 0, {2});
        reads_rows_as(removed, {{LOOSE_LINK, 2, 1, 0, 0, 3, LINK, ONLY_PACKED, NONE, 0, 0, 0, HIGH, 1},
                                {ONLY_PACKED, 2, 0, 0, 0, 3, OBJECT, HIGH, NONE, 0, 1, 0, 0, 2}});
    }
}

// ---- regions that no call leaves

// Rows that say they found what is not there, or found nothing where something is. The place is that of the values that are there.
static void test_unlike_values()
{
    const Value other = object(77);
    const std::pair<uint8_t, Value> expectations[] = {
        {ANY, {}},   {MUST_EXIST, {}},  {MUST_NOT_EXIST, {}}, {MUST_EXIST_AND_MATCH, other}, {MUST_EXIST_AND_MATCH, link(HEAD)},
        {EXISTING_MUST_MATCH, other},
    };
    for (uint8_t mode : MODES)
        for (bool opened : {false, true})
            for (const auto &[expected, target] : expectations) {
                Store store = site();
                store.mode = mode;
                for (uint16_t name = 0; name < SITUATIONS; name++)
                    store.rows.push_back(log_only(expecting(update(name, object(50)), expected, target)));
                if (opened)
                    store.rows.push_back(deletion(OTHER));
                take_locks(store);
                check(is_good(store) && store.packed_lock == (opened ? OURS : FREE), "a good region, by hand");
                World world(store);
                for (uint16_t name = 0; name < SITUATIONS; name++)
                    world.gives(call::read_row(name), 0,
                                {name, 1, 1, 0, 0, expected, target.kind, target.number, OBJECT, 50, 0, 0, 0,
                                 read_of(name, opened)[2]});
                reads_names(world, true);
            }
}

// A parent that is no link, and a child that it does not lead to. The packed table's lock is foreign, which is not ours.
static void test_unlike_links()
{
    for (uint8_t mode : MODES) {
        Store store = site();
        store.mode = mode;
        store.packed_lock = FOREIGN;
        const Row parent = log_only(found(update(PACKED_BEHIND, object(50)), link(LOOSE_OBJECT)));
        store.rows = {parent, child_of(0, log_only(update(ONLY_PACKED, object(50)))), log_only(deletion(OBJECT_ON_PACKED))};
        take_locks(store);
        World foreign(store);
        reads_rows_as(foreign, {{PACKED_BEHIND, 1, 1, 0, 0, 3, LINK, LOOSE_OBJECT, OBJECT, 50, 0, 0, 0, 5},
                                {ONLY_PACKED, 1, 1, 0, 0, 0, NONE, 0, OBJECT, 50, 1, 0, 0, 4},
                                {OBJECT_ON_PACKED, 2, 1, 0, 0, 0, NONE, 0, NONE, 0, 0, 0, 0, 1}});
        store.rows[1].log_only = 0; // which counts
        take_locks(store);
        World ours(store);
        reads_rows_as(ours, {{PACKED_BEHIND, 1, 1, 0, 0, 3, LINK, LOOSE_OBJECT, OBJECT, 50, 0, 0, 0, 3},
                             {ONLY_PACKED, 1, 0, 0, 0, 0, NONE, 0, OBJECT, 50, 1, 0, 0, 2},
                             {OBJECT_ON_PACKED, 2, 1, 0, 0, 0, NONE, 0, NONE, 0, 0, 0, 0, 1}});
        stops_everywhere(store, Led::by_nothing, "rows that do not agree with the values, mode " + std::to_string(mode));
    }
}

// ---- where commit stops

// A name with these values, an edit of it, and what is read after 0 writes, after 1 and so on to the last.
struct Stops {
    Value loose;
    uint64_t packed;
    Edit edit;
    uint8_t mode;
    std::vector<Read> reads;
};

// No name here is logged, so that each write is of a value. Another name has a packed value behind a broken one, and keeps it.
static void stops(const Stops &at_stops, AT_CALLER)
{
    Store store;
    store.setting = 1;
    store.entries = {{"refs/tags/moved", at_stops.loose, at_stops.packed, FREE}, {"refs/tags/apart", {BROKEN, 0}, 4, FREE}};
    const size_t writes = at_stops.reads.size() - 1;
    for (size_t allowance = 0; allowance <= writes; allowance++) {
        World world(store);
        world.gives(call::prepare(write_list({at_stops.edit}), at_stops.mode), 0, {1}, at);
        world.gives(call::commit(0, allowance), allowance < writes ? 17 : 0, {allowance}, at);
        world.gives(call::read_name(0), 0, at_stops.reads[allowance], at);
        world.gives(call::read_name(1), 0, {OBJECT, 4, 3}, at);
    }
}

// The packed table is written before loose values are removed, and after they are written.
static void test_stops()
{
    const Value broken = {BROKEN, 0}, five = object(5), seven = object(7);
    const Edit move = updating(0, seven), turn = updating(0, link(1)), remove = deleting(0);
    for (uint8_t mode : MODES) {
        stops({five, 3, remove, mode, {{OBJECT, 5, 1}, {OBJECT, 5, 1}, {NONE, 0, 4}}});
        stops({broken, 3, remove, mode, {{OBJECT, 3, 3}, {NONE, 0, 5}, {NONE, 0, 4}}});
        stops({broken, 0, remove, mode, {{NONE, 0, 5}, {NONE, 0, 4}}});
        stops({{}, 3, remove, mode, {{OBJECT, 3, 2}, {NONE, 0, 4}}});
        stops({five, 0, remove, mode, {{OBJECT, 5, 1}, {NONE, 0, 4}}});
        stops({{}, 3, turn, mode, {{OBJECT, 3, 2}, {LINK, 1, 1}}});
        stops({broken, 3, turn, mode, {{OBJECT, 3, 3}, {LINK, 1, 1}}});
        stops({broken, 3, log_only(remove), mode, {{OBJECT, 3, 3}}});
        stops({{}, 3, log_only(move), mode, {{OBJECT, 3, 2}}});
    }
    stops({broken, 3, move, 1, {{OBJECT, 3, 3}, {OBJECT, 7, 1}}});
    stops({broken, 3, move, 2, {{OBJECT, 3, 3}, {OBJECT, 7, 1}, {OBJECT, 7, 1}}});
    stops({broken, 3, move, 3, {{OBJECT, 3, 3}, {OBJECT, 7, 3}, {OBJECT, 7, 2}}});
    stops({broken, 0, move, 3, {{NONE, 0, 5}, {OBJECT, 7, 3}, {OBJECT, 7, 2}}});
    stops({five, 3, move, 3, {{OBJECT, 5, 1}, {OBJECT, 5, 1}, {OBJECT, 7, 2}}});
    stops({{}, 0, move, 3, {{NONE, 0, 4}, {OBJECT, 7, 2}}});
    stops({{}, 0, move, 1, {{NONE, 0, 4}, {OBJECT, 7, 1}}});
}

// All situations at once, in every mode: at every stop these names read as our own store says.
static void test_every_stop()
{
    for (uint8_t mode : MODES)
        for (Make make : {to_object, to_link, deleting, logged, unlogged}) {
            World world(site());
            world.gives(call::prepare(write_list(of_each(make)), mode), 0, {SITUATIONS});
            stops_everywhere(world.store(), Led::by_calls, "all places, mode " + std::to_string(mode));
        }
}

void test_places()
{
    test_opened();
    test_unopened();
    test_nothing_packed();
    test_stays();
    test_committed();
    test_behind();
    test_children();
    test_grandchildren();
    test_unlike_values();
    test_unlike_links();
    test_stops();
    test_every_stop();
}
