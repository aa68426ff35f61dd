// Prepared stores, made by hand and at random, committed at every stop by every kind of committer. Where calls led to them,
// demand 3 is judged at each stop.
#include "committing.h"
#include "random_calls.h"
#include "share.h"
#include "tally.h"
#include "tests.h"

// ---- by hand

// A site with every kind of value, and lines of the names that are deleted below.
static Store site(uint8_t setting)
{
    Store s;
    s.setting = setting;
    s.entries = {
        {"HEAD", link(1), 0, FREE},
        {"refs/heads/main", link(2), 0, FREE},
        {"refs/heads/aisle", object(5), 3, FREE},
        {"refs/tags/spring", {}, 9, FREE},
        {"refs/heads/old", object(4), 8, FREE},
        {"refs/heads/broken", {BROKEN, 0}, 6, FREE},
        {"refs/bisect/bad", object(7), 0, FREE},
        {"refs/heads/same", object(11), 0, FREE},
        {"refs/remotes/o/gone", {}, 0, FREE},
        {"refs/notes/logged", object(12), 0, FREE},
        {"FETCH_HEAD", object(13), 0, FREE},
        {"refs/heads/linked", link(3), 0, FREE},
        {"refs/heads/new", {}, 0, FREE},
        {"refs/heads/apart", object(20), 0, FOREIGN},
        {"refs/heads/both", {BROKEN, 0}, 15, FREE},
        {"refs/worktree/w", {BROKEN, 0}, 0, FREE},
    };
    for (uint16_t name : {4, 5, 8, 9, 4, 13, 9, 3})
        s.lines.push_back({name, 1, uint64_t(name) + 1, 2, 3});
    return s;
}

// One edit of each kind.
static std::vector<Edit> site_edits()
{
    return {
        through(with_message(updating(0, object(30)), 1)),
        updating(3, object(31)),
        deleting(4),
        deleting(5),
        updating(6, object(32)),
        updating(7, object(11)),
        deleting(8),
        log_only(deleting(9)),
        forced(log_only(updating(10, object(14)))),
        updating(11, link(3)),
        expecting(updating(12, link(3)), EXISTING_MUST_MATCH, object(21)),
        updating(14, object(16)),
        deleting(15),
    };
}

// The edits are prepared; then another program takes the lock of refs/heads/same, if it was dropped.
static void commits_site(const Store &store, const std::vector<Edit> &edits, uint8_t mode, const std::string &what, AT_CALLER)
{
    World world(store);
    check(world.agrees(call::prepare(write_list(edits), mode), at).number == 0, what + ": the list is prepared", at);
    world.agrees(call::place_lock_on_name(7), at);
    stops_everywhere(world.store(), Led::by_calls, what, at);
}

// All edits at once, and each alone and through its links, in each mode with each setting.
static void test_site()
{
    for (uint8_t setting : {0, 1, 2})
        for (uint8_t mode : {1, 2, 3}) {
            const Store store = site(setting);
            const std::string what = "setting " + std::to_string(setting) + ", mode " + std::to_string(mode);
            commits_site(store, site_edits(), mode, what);
            for (const Edit &edit : site_edits()) {
                commits_site(store, {edit}, mode, what + ", one edit");
                commits_site(store, {through(edit)}, mode, what + ", one edit through links");
            }
        }
}

// Chains of each length to each kind of end: moved, linked and deleted.
static void test_chains()
{
    for (size_t hops = 0; hops <= 4; hops++)
        for (const Value &end : {Value{}, Value{BROKEN, 0}, object(5)})
            for (uint64_t packed : {0, 6})
                for (uint8_t mode : {1, 2, 3}) {
                    Store store = chain(hops, end);
                    store.entries[hops].packed = packed;
                    store.lines = {{uint16_t(hops), 0, 5, 1, 0}, {0, 0, 5, 1, 0}};
                    for (const Edit &edit : {updating(0, object(7)), updating(0, link(0)), deleting(0)}) {
                        World world(store);
                        check(world.agrees(call::prepare(write_list({through(edit)}), mode)).number == 0, "a chain is prepared");
                        stops_everywhere(world.store(), Led::by_calls, "a chain of " + std::to_string(hops));
                    }
                }
}

// Regions that are good, though no call leads to them: rows that do not agree with the values beside them.
static void test_samples()
{
    stops_everywhere(prepared(), Led::by_nothing, "the sample");
    stops_everywhere(nested_prepared(), Led::by_nothing, "the sample with names beneath others");
    for (uint8_t mode : {1, 2, 3})
        stops_everywhere(prepared_in(mode), Led::by_nothing, "the sample in mode " + std::to_string(mode));
}

// ---- at random

// How often each kind of write was among those that were committed.
struct Kinds {
    std::atomic<size_t> met[5] = {};

    void add(const Store &prepared)
    {
        for (const Write &write : writes_of(prepared))
            met[size_t(write.kind)]++;
    }

    void all_met(const char *what) const
    {
        for (const std::atomic<size_t> &times : met)
            check(times > 50, std::string(what) + ": one kind of write hardly came");
    }
};

// A list that prepare takes, and what others do then.
static void test_prepared_by_chance()
{
    Kinds kinds;
    share_out(1000, [&](size_t first, size_t end) {
        for (size_t round = first; round < end; round++) {
            Dice dice(20000 + round);
            size_t names = 1 + dice.below(12), lines = dice.below(14);
            World world(ready_store(dice, names, lines));
            for (int tries = 0; tries < 50 && world.store().mode == 0; tries++)
                world.agrees(random_prepare(dice, world.store()));
            for (uint64_t others = dice.below(3); others > 0; others--)
                world.agrees(call::place_lock_on_name(dice.below(world.store().entries.size())));
            if (world.store().mode == 0)
                continue;
            kinds.add(world.store());
            stops_everywhere(world.store(), Led::by_calls, "round " + std::to_string(round));
        }
    });
    kinds.all_met("prepared by chance");
}

// Good stores with any rows.
static void test_any_rows()
{
    Kinds kinds;
    share_out(400, [&](size_t first, size_t end) {
        for (size_t round = first; round < end; round++) {
            Dice dice(30000 + round);
            size_t names = 1 + dice.below(12), lines = dice.once_in(10) ? 1024 : dice.below(20);
            const Store store = random_store(dice, names, lines, true);
            kinds.add(store);
            stops_everywhere(store, Led::by_nothing, "any rows, round " + std::to_string(round));
        }
    });
    kinds.all_met("any rows");
}

void test_commit_everywhere()
{
    test_site();
    test_chains();
    test_samples();
    test_prepared_by_chance();
    test_any_rows();
}
