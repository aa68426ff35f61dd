// The checks of the foreign interface. With an argument N, only one bit of each N is turned over where all bits are. With two more,
// so many random sequences are made, with another seed.
#include "check.h"
#include "entries.h"
#include "tests.h"

#include <chrono>
#include <cstdio>
#include <cstdlib>
#include <functional>
#include <utility>

static const unsigned long SEQUENCES = 20000, SEED = 1;

// The parts that need to be told nothing, in their order.
static const std::pair<const char *, void (*)()> PARTS[] = {
    {"header", test_header},
    {"sizes", test_sizes},
    {"names", test_names},
    {"values", test_values},
    {"locks", test_locks},
    {"log", test_log},
    {"prepared", test_prepared},
    {"rules", test_rules},
    {"prepare_list", test_prepare_list},
    {"prepare_splits", test_prepare_splits},
    {"prepare_turns", test_prepare_turns},
    {"prepare_kept", test_prepare_kept},
    {"prepare_room", test_prepare_room},
    {"places", test_places},
    {"beneath", test_beneath},
    {"beneath_regions", test_beneath_regions},
    {"commit_writes", test_commit_writes},
    {"commit_lines", test_commit_lines},
    {"commit_stops", test_commit_stops},
    {"commit_everywhere", test_commit_everywhere},
    {"marked", test_marked},
    {"settings", test_settings},
    {"settings_changed", test_settings_changed},
    {"settings_random", test_settings_random},
    {"receiver", test_receiver},
    {"receiver_sizes", test_receiver_sizes},
    {"receiver_closed", test_receiver_closed},
    {"receiver_flips", test_receiver_flips},
    {"fragments", test_fragments},
    {"packed_sizes", test_packed_sizes},
    {"packed_write", test_packed_write},
    {"packed_read", test_packed_read},
    {"packed_changed", test_packed_changed},
    {"packed_random", test_packed_random},
    {"random", test_random},
};

static void part(const char *name, const std::function<void()> &test)
{
    watch_for_crashes(name);
    about("");
    auto begin = std::chrono::steady_clock::now();
    test();
    std::chrono::duration<double> seconds = std::chrono::steady_clock::now() - begin;
    std::printf("%s: %.1f s\n", name, seconds.count());
}

int main(int count, char **words)
{
    std::setvbuf(stdout, nullptr, _IOLBF, 0);
    auto number = [&](int i, unsigned long usual) { return count > i ? std::strtoul(words[i], nullptr, 10) : usual; };
    unsigned long every = number(1, 1), sequences = number(2, SEQUENCES), seed = number(3, SEED);
    if (count > 4 || every == 0 || sequences == 0) {
        std::fprintf(stderr, "usage: %s [N [SEQUENCES [SEED]]], to turn over one bit of each N, and to make so many sequences\n",
                     words[0]);
        return 2;
    }
    for (const auto &[name, test] : PARTS)
        part(name, test);
    part("sequences", [=] { test_sequences(sequences, seed); });
    part("flips", [=] { test_flips(every); });
    return closing() ? 0 : 1;
}
