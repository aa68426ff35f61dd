// The syntax of names, adding them, and where their bytes stand.
#include "dehlbazin.h"
#include "samples.h"
#include "tests.h"
#include "world.h"

#include <cstring>

static std::string many(size_t count, char c) { return std::string(count, c); }

static const std::string GOOD[] = {
    "HEAD", "A", "Z", "FETCH_HEAD", "A_", "A__B", "REFS", many(64, 'A'), "A" + many(63, '_'),
    "refs/a", "refs/Z", "refs/0", "refs/-", "refs/_", "refs/a.b", "refs/a./b", "refs/a.b./c.d", "refs/refs/refs",
    "refs/heads/main", "refs/a/b/c/d/e/f/g", "refs/HEAD", "refs/bisect", "refs/bisect/bad", "refs/lock", "refs/xlock",
    "refs/a.lock.b", "refs/a.lockx", "refs/a.LOCK", "refs/a.loc", "refs/a.lock-", "refs/lock/a", "refs/a-b_c.9",
    "refs/" + many(59, 'x'), "refs/a/" + many(57, '9'),
};

static const std::string BAD[] = {
    "", "_", "_HEAD", "head", "HEAd", "hEAD", "HEAD1", "HEAD-", "HEAD.", "HEAD/", "HEAD/A", "/HEAD", "HEAD ", " HEAD",
    "HEAD\n", std::string("HEAD\0", 5), std::string("\0", 1), std::string("\0HEAD", 5), "A.B", "1", "-", ".", "/",
    "refs", "refs/", "refs//", "refs//a", "refs/a/", "refs/a//b", "refs/a//", "/refs/a", "/", "//", "Refs/a", "REFS/a",
    "REFS/A", "refs.a", "refs\\a", "ref/a", "refsx/a", "xrefs/a", "heads/a",
    "refs/.a", "refs/a/.b", "refs/.", "refs/..", "refs/...", "refs/a..b", "refs/a../b", "refs/a/../b", "refs/./a", "refs/a/./b",
    "refs/a.", "refs/a/b.", "refs/a./b.", "refs/a..", "refs/a.lock.", "refs/a.lock", "refs/a/b.lock", "refs/a.lock/b",
    "refs/.lock", "refs/a/.lock", "refs/a.lock.lock", "refs/a b", "refs/a\tb", "refs/a\n", "refs/a:b", "refs/a~", "refs/a^",
    "refs/a?", "refs/a*", "refs/a[", "refs/a\\b", "refs/@", "refs/a@{b", "refs/a+b", "refs/a,b", "refs/a%b", "refs/\x7f",
    "refs/\xc3\xa9", "refs/\xff", std::string("refs/a\0b", 8), std::string("refs/a\0", 7),
    many(65, 'A'), "refs/" + many(60, 'x'), "refs/a/" + many(58, '9'),
    many(256 + 4, 'A'), many(65536 + 4, 'A'), "refs/a" + many(256, 'x'), "refs/a" + many(65536, 'x'),
};

static void test_syntax()
{
    for (const std::string &name : GOOD) {
        World world;
        world.gives(call::add_name(name), 0, {0});
        world.gives(call::name_bytes(0), 0, {14, name.size()});
    }
    for (const std::string &name : BAD) {
        World world(busy());
        world.gives(call::add_name(name), 18);
    }
    World world(busy());
    Lent none(0), record(ANSWER);
    uint32_t number = dehlbazin_add_name(world.region().data(), REGION, none.data(), 0, record.data(), ANSWER);
    check(number == 18, "no bytes at a pointer that is not null");
    check(world.region().holds(encode(busy())), "no bytes at a pointer that is not null: the region");
}

// Every byte alone, within a name of capitals, within a component, and at both ends of one.
static void test_every_byte()
{
    for (int code = 0; code < 256; code++) {
        char c = char(code);
        bool capital = c >= 'A' && c <= 'Z';
        bool plain = capital || (c >= 'a' && c <= 'z') || (c >= '0' && c <= '9') || c == '-' || c == '_';
        auto is = [&](bool good, const std::string &name) {
            World world;
            if (good)
                world.gives(call::add_name(name), 0, {0});
            else
                world.gives(call::add_name(name), 18);
        };
        is(capital, std::string(1, c));
        is(capital || c == '_', std::string("X") + c);
        is(capital || c == '_', std::string("X") + c + "Y");
        is(plain, std::string("refs/") + c);
        is(plain || c == '.' || c == '/', std::string("refs/x") + c + "y");
        is(plain, std::string("refs/") + c + "y");
        is(plain, std::string("refs/y") + c);
        is(plain || c == '.', std::string("refs/y") + c + "/z");
        is(c == '/', std::string("refs") + c + "a");
    }
}

static std::string numbered(size_t n) { return "refs/heads/aisle-" + std::to_string(n); }

static void test_numbers()
{
    World world;
    world.gives(call::name_bytes(0), 3, {0});
    world.gives(call::add_name("HEAD"), 0, {0});
    world.gives(call::add_name("HEAD"), 0, {0});
    world.gives(call::name_bytes(1), 3, {1});
    world.gives(call::add_name("refs/heads/aisle"), 0, {1});
    world.gives(call::add_name("HEA"), 0, {2}); // a beginning of a known name is another name
    world.gives(call::add_name("HEADS"), 0, {3});
    world.gives(call::add_name("HEAD"), 0, {0});
    world.gives(call::add_name("refs/heads/aisle"), 0, {1});
    world.gives(call::name_bytes(0), 0, {14, 4});
    world.gives(call::name_bytes(1), 0, {14 + 65, 16});
    world.gives(call::name_bytes(3), 0, {14 + 3 * 65, 5});
    for (uint64_t k = 0; k < 5; k++)
        for (uint64_t name : too_large(k))
            world.gives(call::name_bytes(name), 3, {name});

    const uint8_t *text = world.region().data() + 14 + 65;
    check(std::memcmp(text, "refs/heads/aisle", 16) == 0, "the bytes that name_bytes points out");
}

static void test_full()
{
    World world;
    for (size_t n = 0; n < 256; n++)
        world.gives(call::add_name(numbered(n)), 0, {n});
    world.gives(call::add_name(numbered(256)), 19);
    world.gives(call::add_name("HEAD"), 19);
    world.gives(call::add_name("head"), 18);
    world.gives(call::add_name(many(65, 'A')), 18);
    for (size_t n : {0, 1, 17, 128, 254, 255}) {
        world.gives(call::add_name(numbered(n)), 0, {n});
        world.gives(call::name_bytes(n), 0, {14 + 65 * n, numbered(n).size()});
    }
    for (uint64_t k : {0, 1, 255})
        for (uint64_t name : too_large(k)) {
            world.gives(call::name_bytes(name), 3, {name});
            world.gives(call::load_loose(name, 1, 1), 3, {name});
            world.gives(call::load_loose(0, 2, name), 3, {name});
            world.gives(call::load_packed(name, 1, 1), 3, {name});
            world.gives(call::place_lock_on_name(name), 3, {name});
            world.gives(call::lift_lock_of_name(name), 3, {name});
            world.gives(call::read_name(name), 3, {name});
            world.gives(call::read_line(name, 0), 3, {name});
        }
    world.gives(call::load_loose(255, 2, 255), 0);
    world.gives(call::load_packed(255, 1, ~uint64_t(0)), 0);
    world.gives(call::place_lock_on_name(255), 0);
    world.gives(call::read_name(255), 0, {2, 255, PLACE_LOOSE});
    world.gives(call::load_loose(255, 3, 0), 0);
    world.gives(call::read_name(255), 0, {1, ~uint64_t(0), PLACE_PACKED_BEHIND_BROKEN});
    world.gives(call::lift_lock_of_name(255), 0);
    world.gives(call::start(0), 0);
}

// Each of these names, no two of them the same, gets the next number, and that number again when it comes again.
static void gives_numbers(const std::vector<std::string> &names)
{
    World world;
    for (int time = 0; time < 2; time++)
        for (size_t n = 0; n < names.size(); n++)
            world.gives(call::add_name(names[n]), 0, {n});
}

// Names of the greatest length that differ in one byte, and in two, wherever these stand.
static void test_one_byte_apart()
{
    std::vector<std::string> names = {many(64, 'A')};
    for (size_t at = 0; at < 64; at++) {
        names.push_back(many(64, 'A'));
        names.back()[at] = 'B';
    }
    gives_numbers(names);
}

// Every name of A and B up to six bytes: the beginnings and the ends of each other, and each set of places in which two can differ.
static void test_alike()
{
    std::vector<std::string> names;
    for (size_t size = 1; size <= 6; size++)
        for (size_t bits = 0; bits < size_t(1) << size; bits++) {
            names.push_back(many(size, 'A'));
            for (size_t at = 0; at < size; at++)
                if (bits >> at & 1)
                    names.back()[at] = 'B';
        }
    gives_numbers(names);
}

// The region's test tells most names apart by their marks (crates/rules), and these pairs have one mark each: their bytes are compared.
static void test_one_mark()
{
    gives_numbers({"refs/heads/xijbinl", "refs/heads/xjfheol", "refs/heads/jcmmnnz", "refs/heads/ihcwioz", "refs/heads/gujimje",
                   "refs/heads/ionmgle"});
}

// A transaction does not stand in the way of a new name.
static void test_while_prepared()
{
    World world(prepared());
    world.gives(call::add_name("refs/heads/aisle"), 0, {1});
    world.gives(call::add_name("refs/heads/new"), 0, {6});
    world.gives(call::add_name("refs/heads/new.lock"), 18);
    world.gives(call::name_bytes(6), 0, {14 + 6 * 65, 14});
    world.gives(call::name_bytes(7), 3, {7});
}

void test_names()
{
    test_syntax();
    test_every_byte();
    test_numbers();
    test_full();
    test_one_byte_apart();
    test_alike();
    test_one_mark();
    test_while_prepared();
}
