// The edit list: its frame, its records field by field, and the numbers in it that are no names. All of it is judged before the
// store's values are looked at.
#include "preparing.h"
#include "tests.h"

static std::string bytes(std::initializer_list<int> numbers) { return std::string(numbers.begin(), numbers.end()); }

static std::string with_byte(std::string list, size_t at, uint8_t byte)
{
    list[at] = char(byte);
    return list;
}

// The list with the length that it has.
static std::string with_length(std::string list)
{
    size_t rest = list.size() - 3;
    return with_byte(with_byte(list, 1, uint8_t(rest >> 8)), 2, uint8_t(rest));
}

static size_t in_record(size_t record, size_t at) { return LIST_HEADER + RECORD * record + at; }

// The whole example of the document, byte by byte.
static void test_example()
{
    const std::string example = bytes({1, 0, 0x1C, 1}) + bytes({1, 1, 0, 0, 0}) + bytes({0, 0, 0, 0, 0, 0, 0, 0, 0}) +
                                bytes({1, 0, 0, 0, 0, 0, 0, 0, 7}) + bytes({0, 0}) + bytes({0, 3});
    Edit edit = through(updating(0, object(7)));
    edit.message = 3;
    check(example.size() == 31 && write_list({edit}) == example, "our own writer writes other bytes");
    World world(marked());
    world.gives(call::prepare(example, 1), 0, {2});
    world.gives(call::read_row(0), 0, {0, 1, 1, 0, 3, 3, LINK, 1, OBJECT, 7, 0, 0, 0, PLACE_LOOSE});
    world.gives(call::read_row(1), 0, {1, 1, 0, 0, 3, 0, NONE, 0, OBJECT, 7, 1, 0, 0, PLACE_ABSENT});
}

static void test_frame()
{
    World world(marked());
    auto malformed = [&](const std::string &list, AT_CALLER) { world.gives(call::prepare(list, 1), 2, {}, at); };
    const std::string list = write_list({updating(1, object(7))});
    for (size_t size = 0; size < list.size(); size++) {
        malformed(list.substr(0, size));
        if (size >= 3)
            malformed(with_length(list.substr(0, size)));
    }
    for (size_t more : {1, 26, 27, 28, 54, 256 * 27, 65536}) { // 65,536 more leave the length's two bytes as they are
        malformed(list + std::string(more, '\0'));
        malformed(with_length(list + std::string(more, '\0')));
    }
    for (uint8_t version : {0, 2, 129, 255})
        malformed(with_byte(list, 0, version));
    for (uint8_t high : {1, 128, 255})
        malformed(with_byte(list, 1, high));
    for (uint8_t low : {0, 1, 0x1B, 0x1D, 0x1F, 0x9C, 255})
        malformed(with_byte(list, 2, low));
    malformed(with_byte(with_byte(list, 1, 0x1C), 2, 0)); // the other way round
    for (uint8_t count : {0, 2, 3, 33, 129, 255})
        malformed(with_byte(list, 3, count));
    world.gives(call::prepare(list, 1), 0, {1});
}

// 0 to 32 edits, and more than that.
static void test_counts()
{
    const Store store = plain(255);
    std::vector<Edit> edits;
    std::vector<Row> rows;
    prepares(store, edits, 1, rows);
    check(write_list({}) == bytes({1, 0, 1, 0}), "our own writer of no edits");
    for (uint16_t n = 0; n < 255; n++) {
        edits.push_back(updating(n, object(n + 1)));
        rows.push_back(update(n, object(n + 1)));
        size_t count = edits.size();
        if (count == 1 || count == 31 || count == 32)
            prepares(store, edits, 1, rows);
        if (count == 33 || count == 34 || count == 64 || count == 160 || count == 255)
            refuses(store, edits, 1, 2);
    }
    check(write_list(std::vector<Edit>(32)).size() == 868, "the longest list");
}

using Change = void (*)(Edit &);

// Records with one defect each, which are well formed without it.
static void test_defects()
{
    struct Case {
        const char *what;
        Edit good;
        Change change;
    };
    const Edit edit = expecting(updating(1, object(7)), MUST_EXIST_AND_MATCH, object(6)), free = updating(1, link(0));
    const Edit removal = expecting(deleting(1), EXISTING_MUST_MATCH, link(0)), bare = deleting(1);
    const Case cases[] = {
        {"kind 0", edit, [](Edit &e) { e.kind = 0; }},
        {"kind 0", bare, [](Edit &e) { e.kind = 0; }},
        {"kind 3", edit, [](Edit &e) { e.kind = 3; }},
        {"kind 3", bare, [](Edit &e) { e.kind = 3; }},
        {"kind 255", edit, [](Edit &e) { e.kind = 255; }},
        {"an update made a delete", edit, [](Edit &e) { e.kind = DELETE; }},
        {"a delete made an update", removal, [](Edit &e) { e.kind = UPDATE; }},
        {"deref 2", edit, [](Edit &e) { e.deref = 2; }},
        {"deref 255", removal, [](Edit &e) { e.deref = 255; }},
        {"log 2", edit, [](Edit &e) { e.log_only = 2; }},
        {"log 255", removal, [](Edit &e) { e.log_only = 255; }},
        {"force 2", edit, [](Edit &e) { e.force = 2; }},
        {"force 255", free, [](Edit &e) { e.force = 255; }},
        {"a delete's force", removal, [](Edit &e) { e.force = 1; }},
        {"a delete's force", bare, [](Edit &e) { e.force = 1; }},
        {"a delete's message", bare, [](Edit &e) { e.message = 1; }},
        {"a delete's message", removal, [](Edit &e) { e.message = 256; }},
        {"expected 5", edit, [](Edit &e) { e.expected = 5; }},
        {"expected 5", free, [](Edit &e) { e.expected = 5; }},
        {"expected 255", removal, [](Edit &e) { e.expected = 255; }},
        {"expected 0 with an object", edit, [](Edit &e) { e.expected = ANY; }},
        {"expected 1 with an object", edit, [](Edit &e) { e.expected = MUST_EXIST; }},
        {"expected 2 with an object", edit, [](Edit &e) { e.expected = MUST_NOT_EXIST; }},
        {"expected 0 with a link", removal, [](Edit &e) { e.expected = ANY; }},
        {"expected 1 with a link", removal, [](Edit &e) { e.expected = MUST_EXIST; }},
        {"expected 2 with a link", removal, [](Edit &e) { e.expected = MUST_NOT_EXIST; }},
        {"expected 3 with nothing", free, [](Edit &e) { e.expected = MUST_EXIST_AND_MATCH; }},
        {"expected 4 with nothing", free, [](Edit &e) { e.expected = EXISTING_MUST_MATCH; }},
        {"expected 3 with nothing", bare, [](Edit &e) { e.expected = MUST_EXIST_AND_MATCH; }},
        {"expected 4 with nothing", bare, [](Edit &e) { e.expected = EXISTING_MUST_MATCH; }},
        {"expected object 0", edit, [](Edit &e) { e.expected_target = object(0); }},
        {"expected object 0", removal, [](Edit &e) { e.expected_target = object(0); }},
        {"expected kind 3", edit, [](Edit &e) { e.expected_target.kind = 3; }},
        {"expected kind 3 with 0", removal, [](Edit &e) { e.expected_target = {3, 0}; }},
        {"expected kind 255", removal, [](Edit &e) { e.expected_target.kind = 255; }},
        {"expected kind 3 beside expected 0", free, [](Edit &e) { e.expected_target.kind = 3; }},
        {"a number beside no expected target", free, [](Edit &e) { e.expected_target.number = 1; }},
        {"a number beside no expected target", bare, [](Edit &e) { e.expected_target.number = uint64_t(1) << 63; }},
        {"no new target", edit, [](Edit &e) { e.new_target = {}; }},
        {"no new target, and a number", edit, [](Edit &e) { e.new_target = {NONE, 7}; }},
        {"new object 0", edit, [](Edit &e) { e.new_target = object(0); }},
        {"new object 0", free, [](Edit &e) { e.new_target = object(0); }},
        {"new kind 3", edit, [](Edit &e) { e.new_target = {BROKEN, 0}; }},
        {"new kind 3 with a number", edit, [](Edit &e) { e.new_target = {3, 1}; }},
        {"new kind 255", free, [](Edit &e) { e.new_target.kind = 255; }},
        {"a delete's new object", removal, [](Edit &e) { e.new_target = object(7); }},
        {"a delete's new link", bare, [](Edit &e) { e.new_target = link(0); }},
        {"a delete's new object 0", bare, [](Edit &e) { e.new_target = object(0); }},
        {"a number beside a delete's new target", bare, [](Edit &e) { e.new_target = {NONE, 1}; }},
        {"a number beside a delete's new target", removal, [](Edit &e) { e.new_target = {NONE, uint64_t(1) << 56}; }},
    };
    World world(plain(40));
    for (const Case &c : cases) {
        Edit defect = c.good;
        c.change(defect);
        check(read_list(write_list({c.good})).has_value(), std::string(c.what) + ": the record without the defect");
        check(!read_list(write_list({defect})), std::string(c.what) + ": our own reader takes the record");
        world.gives(call::prepare(write_list({defect}), 1), 2);
    }
    // Wherever it stands in a list, and however good the others are.
    for (size_t place : {0, 1, 16, 30, 31}) {
        std::vector<Edit> edits;
        for (uint16_t n = 2; n < 34; n++)
            edits.push_back(updating(n, object(n)));
        world.gives(call::prepare(write_list(edits), 1), 0, {32});
        world.gives(call::rollback(), 0, {32});
        edits[place].force = 2;
        world.gives(call::prepare(write_list(edits), 1), 2);
    }
}

// Each byte of four records in turn with many values: whatever our own reader and store say of it.
static void test_every_byte()
{
    Store store = plain(3);
    store.entries[0].loose = link(1);
    store.entries[1].loose = object(6);
    World world(store);
    const Edit records[] = {
        through(updating(0, object(7))),
        expecting(updating(1, link(2)), MUST_EXIST_AND_MATCH, object(6)),
        deleting(2),
        expecting(log_only(deleting(0)), EXISTING_MUST_MATCH, link(1)),
    };
    size_t given[16] = {};
    for (const Edit &record : records) {
        const std::string list = write_list({record});
        for (size_t at = 0; at < RECORD; at++)
            for (uint8_t byte : {0, 1, 2, 3, 4, 5, 6, 8, 16, 32, 64, 127, 128, 255}) {
                const Call prepare = call::prepare(with_byte(list, in_record(0, at), byte), 1);
                given[prepare_and_roll_back(world, prepare)]++;
            }
    }
    for (size_t number : {0, 2, 3, 9, 10, 11, 12, 13})
        check(given[number] > 0, "no byte of a record gave " + std::to_string(number));
}

// Names and links that are not registered come back whole, the first by its place in the list.
static void test_numbers()
{
    World world(plain(5));
    auto unregistered = [&](const std::vector<Edit> &edits, uint64_t number, AT_CALLER) {
        world.gives(call::prepare(write_list(edits), 2), 3, {number}, at);
    };
    for (uint16_t name : {5, 6, 127, 128, 255, 256, 257, 260, 32768, 65535}) {
        unregistered({updating(name, object(1))}, name);
        unregistered({deleting(name)}, name);
    }
    for (uint64_t k = 0; k < 6; k++)
        for (uint64_t number : too_large(k)) {
            unregistered({updating(1, link(number))}, number);
            unregistered({expecting(updating(1, object(1)), MUST_EXIST_AND_MATCH, link(number))}, number);
            unregistered({expecting(deleting(1), EXISTING_MUST_MATCH, link(number))}, number);
        }
    unregistered({updating(1, link(5))}, 5);
    unregistered({expecting(deleting(1), MUST_EXIST_AND_MATCH, link(5))}, 5);

    // An object's number is no name's, however large.
    for (uint64_t number : too_large(1))
        prepares(plain(5), {expecting(updating(4, object(number)), EXISTING_MUST_MATCH, object(number))}, 1,
                 {expecting(update(4, object(number)), EXISTING_MUST_MATCH, object(number))});

    // In a record: expected target, new target, name. Then record by record.
    const Edit all = expecting(updating(8, link(7)), MUST_EXIST_AND_MATCH, link(65536)), fine = updating(0, link(4));
    const Edit two = expecting(updating(8, link(7)), EXISTING_MUST_MATCH, object(9)), one = updating(8, link(4));
    unregistered({all}, 65536);
    unregistered({two}, 7);
    unregistered({one}, 8);
    unregistered({fine, one, two, all}, 8);
    unregistered({fine, two, one, all}, 7);
    unregistered({fine, fine, all, one}, 65536);
    unregistered({fine, updating(9, object(9)), expecting(fine, MUST_EXIST_AND_MATCH, link(6))}, 9);
}

// Every field with numbers that fill it.
static void test_wide_fields()
{
    const uint64_t large = 0x0102030405060708, larger = 0x1112131415161718;
    Edit edit = log_only(expecting(updating(255, object(large)), EXISTING_MUST_MATCH, object(larger)));
    edit.force = 1;
    edit.message = 65535;
    Edit second = expecting(updating(254, link(253)), EXISTING_MUST_MATCH, link(252));
    second.message = 0x0201;
    World world(plain(256));
    world.gives(call::prepare(write_list({edit, second}), 3), 0, {2});
    world.gives(call::read_row(0), 0, {255, 1, 1, 1, 65535, 4, OBJECT, larger, OBJECT, large, 0, 0, 0, PLACE_ABSENT});
    world.gives(call::read_row(1), 0, {254, 1, 0, 0, 0x0201, 4, LINK, 252, LINK, 253, 0, 0, 0, PLACE_ABSENT});
    world.gives(call::rollback(), 0, {2});
}

static void test_modes()
{
    World world(plain(3));
    const std::string some = write_list({updating(1, object(7))}), none = write_list({});
    for (const std::string &list : {some, none}) {
        for (uint64_t mode : {uint64_t(0), uint64_t(4), uint64_t(5), uint64_t(255)})
            world.gives(call::prepare(list, mode), 2);
        for (uint64_t k : {0, 1, 2, 3})
            for (uint64_t mode : too_large(k))
                world.gives(call::prepare(list, mode), 2);
        for (uint64_t mode : {1, 2, 3}) {
            world.gives(call::prepare(list, mode), 0, {list == some});
            check(world.store().mode == mode, "the mode that is prepared");
            world.gives(call::rollback(), 0, {list == some});
        }
    }
}

// 15, then 2 of the whole list and of the mode, then 3, then all that is found out by looking at values.
static void test_order()
{
    const Edit fine = updating(1, object(7)), unregistered = updating(99, object(7)), malformed = updating(1, object(0));
    World busy_world(prepared()), world(busy());
    for (const std::vector<Edit> &edits : std::vector<std::vector<Edit>>{{}, {fine}, {unregistered}, {malformed}, {fine, fine}})
        for (uint64_t mode : {uint64_t(0), uint64_t(1), uint64_t(3), uint64_t(65537)})
            busy_world.gives(call::prepare(write_list(edits), mode), 15);
    busy_world.gives(call::prepare("", 1), 15);

    world.gives(call::prepare(write_list({unregistered, fine, malformed}), 1), 2);
    world.gives(call::prepare(write_list({fine, fine, malformed}), 1), 2);
    world.gives(call::prepare(write_list({unregistered}), 4), 2);
    world.gives(call::prepare(write_list({fine, fine}), 0), 2);
    world.gives(call::prepare("", 0), 2);
    // Two of one name, on a packed table and a name that others hold; and a link to itself.
    world.gives(call::prepare(write_list({fine, fine, deleting(2), unregistered}), 1), 3, {99});
    world.gives(call::load_loose(0, LINK, 0), 0);
    world.gives(call::prepare(write_list({through(updating(0, object(1))), unregistered}), 1), 3, {99});
}

void test_prepare_list()
{
    test_example();
    test_frame();
    test_counts();
    test_defects();
    test_every_byte();
    test_numbers();
    test_wide_fields();
    test_modes();
    test_order();
}
