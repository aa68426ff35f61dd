// Both loads, what a name reads, and numbers that are too large for either.
#include "samples.h"
#include "tests.h"
#include "world.h"

static const uint64_t OBJECTS[] = {1, 2, 255, 256, 65535, 65536, 65537, uint64_t(1) << 32, (uint64_t(1) << 63) + 1,
                                   0x0102030405060708, ~uint64_t(0)};

static void test_loose()
{
    World world(busy());
    for (uint64_t name : {0, 1, 2, 3, 4}) {
        for (uint64_t number : OBJECTS) {
            world.gives(call::load_loose(name, OBJECT, number), 0);
            world.gives(call::read_name(name), 0, {OBJECT, number, PLACE_LOOSE});
        }
        for (uint64_t to : {0, 1, 2, 3, 4}) { // to itself too
            world.gives(call::load_loose(name, LINK, to), 0);
            world.gives(call::read_name(name), 0, {LINK, to, PLACE_LOOSE});
        }
    }
    // None and broken show the packed value, where there is one.
    for (uint64_t kind : {NONE, BROKEN}) {
        world.gives(call::load_loose(0, kind, 0), 0);
        world.gives(call::read_name(0), 0, {NONE, 0, kind == NONE ? PLACE_ABSENT : PLACE_ABSENT_BEHIND_BROKEN});
        world.gives(call::load_loose(1, kind, 0), 0);
        world.gives(call::read_name(1), 0, {OBJECT, 5, kind == NONE ? PLACE_PACKED : PLACE_PACKED_BEHIND_BROKEN});
        world.gives(call::load_loose(1, kind, 0), 0);
        world.gives(call::load_loose(1, OBJECT, 6), 0);
        world.gives(call::read_name(1), 0, {OBJECT, 6, PLACE_LOOSE});
    }
}

static void test_loose_refused()
{
    World world(busy());
    world.gives(call::load_loose(1, OBJECT, 0), 21);
    for (uint64_t number : OBJECTS) {
        world.gives(call::load_loose(1, NONE, number), 21);
        world.gives(call::load_loose(1, BROKEN, number), 21);
    }
    // Another kind is no kind, whatever its low bits are, and only a link's number is a name's.
    for (uint64_t number : {uint64_t(0), uint64_t(1), uint64_t(5), ~uint64_t(0)}) {
        for (uint64_t kind : {4, 5, 127, 128, 255})
            world.gives(call::load_loose(1, kind, number), 21);
        for (uint64_t k : {NONE, OBJECT, LINK, BROKEN})
            for (uint64_t kind : too_large(k))
                world.gives(call::load_loose(1, kind, number), 21);
    }
    // Links.
    world.gives(call::load_loose(1, LINK, 5), 3, {5});
    for (uint64_t k = 0; k < 6; k++)
        for (uint64_t number : too_large(k)) {
            world.gives(call::load_loose(1, LINK, number), 3, {number});
            world.gives(call::load_loose(number, OBJECT, 9), 3, {number});
        }
    // The name before the link, and both before the kind.
    world.gives(call::load_loose(5, LINK, 6), 3, {5});
    world.gives(call::load_loose(5, OBJECT, 0), 3, {5});
    world.gives(call::load_loose(5, 4, 0), 3, {5});
    world.gives(call::load_loose(65537, LINK, 65536), 3, {65537});
}

static void test_packed()
{
    World world(busy());
    for (uint64_t name : {1, 2, 4})
        for (uint64_t number : OBJECTS) {
            world.gives(call::load_packed(name, OBJECT, number), 0);
            if (name == 1) // which has a loose value too
                world.gives(call::read_name(name), 0, {OBJECT, 7, PLACE_LOOSE});
            else
                world.gives(call::read_name(name), 0, {OBJECT, number, PLACE_PACKED});
        }
    world.gives(call::load_packed(4, NONE, 0), 0);
    world.gives(call::read_name(4), 0, {NONE, 0, PLACE_ABSENT});
    for (uint64_t name : {0, 3}) { // not packable
        world.gives(call::load_packed(name, NONE, 0), 0);
        world.gives(call::load_packed(name, OBJECT, 9), 21);
        world.gives(call::load_packed(name, OBJECT, 0), 21);
    }
    world.gives(call::load_packed(1, OBJECT, 0), 21);
    for (uint64_t number : OBJECTS)
        world.gives(call::load_packed(1, NONE, number), 21);
    for (uint64_t number : {uint64_t(0), uint64_t(1), uint64_t(5), uint64_t(65536), ~uint64_t(0)}) {
        for (uint64_t kind : {2, 3, 4, 255})
            world.gives(call::load_packed(1, kind, number), 21);
        for (uint64_t k : {NONE, OBJECT, LINK})
            for (uint64_t kind : too_large(k))
                world.gives(call::load_packed(1, kind, number), 21);
    }
    for (uint64_t k = 0; k < 6; k++)
        for (uint64_t name : too_large(k))
            for (uint64_t kind : {0, 1, 2})
                world.gives(call::load_packed(name, kind, 0), 3, {name});
    world.gives(call::load_packed(5, 2, 0), 3, {5});
}

static void test_packable()
{
    const std::pair<const char *, bool> names[] = {
        {"refs/a", true},           {"refs/bisect", true},         {"refs/bisectx", true},        {"refs/bisect-/x", true},
        {"refs/bisect/x", false},   {"refs/bisect/x/y", false},    {"refs/worktree", true},       {"refs/worktree/x", false},
        {"refs/worktrees/x", true}, {"refs/rewritten", true},      {"refs/rewritten/x", false},   {"refs/rewrittenx/y", true},
        {"refs/x/bisect/y", true},  {"refs/refs/bisect/x", true},  {"refs/heads/worktree", true}, {"HEAD", false},
        {"REFS", false},            {"A", false},
    };
    for (const auto &[name, packable] : names) {
        World world;
        world.gives(call::add_name(name), 0, {0});
        world.gives(call::load_packed(0, OBJECT, 11), packable ? 0 : 21);
        if (packable)
            world.gives(call::read_name(0), 0, {OBJECT, 11, PLACE_PACKED});
        else
            world.gives(call::read_name(0), 0, {NONE, 0, PLACE_ABSENT});
        world.gives(call::load_packed(0, NONE, 0), 0);
        world.gives(call::load_loose(0, OBJECT, 12), 0);
        world.gives(call::read_name(0), 0, {OBJECT, 12, PLACE_LOOSE});
    }
}

static void test_read()
{
    World world(busy());
    world.gives(call::read_name(0), 0, {LINK, 1, PLACE_LOOSE});
    world.gives(call::read_name(1), 0, {OBJECT, 7, PLACE_LOOSE});
    world.gives(call::read_name(2), 0, {OBJECT, 0x0102030405060708, PLACE_PACKED});
    world.gives(call::read_name(3), 0, {NONE, 0, PLACE_ABSENT_BEHIND_BROKEN});
    world.gives(call::read_name(4), 0, {NONE, 0, PLACE_ABSENT});
    world.gives(call::read_name(5), 3, {5});
    for (uint64_t k = 0; k < 6; k++)
        for (uint64_t name : too_large(k))
            world.gives(call::read_name(name), 3, {name});
}

void test_values()
{
    test_loose();
    test_loose_refused();
    test_packed();
    test_packable();
    test_read();
}
