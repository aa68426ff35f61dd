// Log lines, by name and by place among that name's lines.
#include "samples.h"
#include "tests.h"
#include "world.h"

static void test_few()
{
    World world(busy());
    world.gives(call::read_line(0, 0), 0, {0, 5, 1, 3});
    world.gives(call::read_line(0, 1), 0, {5, 7, 65535, 0});
    world.gives(call::read_line(0, 2), 0, {7, ~uint64_t(0), 9, 9});
    world.gives(call::read_line(0, 3), 22);
    world.gives(call::read_line(1, 0), 0, {0, 5, 1, 3});
    world.gives(call::read_line(1, 1), 0, {5, 7, 2, 65535});
    world.gives(call::read_line(1, 2), 22);
    world.gives(call::read_line(2, 0), 22);
    world.gives(call::read_line(3, 0), 0, {~uint64_t(0), 0x1112131415161718, 0x0102, 0x0304});
    world.gives(call::read_line(3, 1), 22);
    world.gives(call::read_line(4, 0), 22);
    world.gives(call::read_line(5, 0), 3, {5});
    world.gives(call::read_line(5, ~uint64_t(0)), 3, {5});
    for (uint64_t k = 0; k < 6; k++)
        for (uint64_t large : too_large(k)) {
            world.gives(call::read_line(0, large), 22);
            world.gives(call::read_line(large, 0), 3, {large});
            world.gives(call::read_line(large, large), 3, {large});
        }
    for (uint64_t place : {1023, 1024, 1025, 65535})
        world.gives(call::read_line(0, place), 22);
}

// All 1,024 lines, of three names in turn.
static void test_full()
{
    Store full = busy();
    full.lines.clear();
    for (uint64_t i = 0; i < 1024; i++)
        full.lines.push_back({uint16_t(i % 3), i << 40, (i << 40) + 1, uint16_t(i + 1), uint16_t(1024 - i)});
    World world(full);
    for (uint64_t i : {0, 1, 2, 3, 4, 5, 254, 255, 256, 257, 511, 512, 1020, 1021, 1022, 1023})
        world.gives(call::read_line(i % 3, i / 3), 0, {i << 40, (i << 40) + 1, i + 1, 1024 - i});
    world.gives(call::read_line(0, 342), 22);
    world.gives(call::read_line(1, 341), 22);
    world.gives(call::read_line(3, 0), 22);
    world.gives(call::load_loose(0, OBJECT, 3), 0);

    for (Line &line : full.lines)
        line.name = 4;
    World one(full);
    one.gives(call::read_line(4, 1023), 0, {uint64_t(1023) << 40, (uint64_t(1023) << 40) + 1, 1024, 1});
    one.gives(call::read_line(4, 1024), 22);
    one.gives(call::read_line(0, 0), 22);
}

static void test_while_prepared()
{
    World world(prepared());
    world.gives(call::read_line(1, 0), 0, {0, 7, 1, 0});
    world.gives(call::read_line(3, 0), 0, {0, 4, 2, 1});
    world.gives(call::read_line(3, 1), 22);
    world.gives(call::read_line(0, 0), 22);
}

void test_log()
{
    test_few();
    test_full();
    test_while_prepared();
}
