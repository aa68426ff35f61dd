// The checks of dehlbazin.hpp. With a number, so many random calls are made through it and through dehlbazin.h at once; with one
// more, the seed of their dice.
#include "check.h"
#include "parts.h"

#include <chrono>
#include <cstdio>
#include <cstdlib>
#include <exception>
#include <functional>

static const unsigned long CALLS = 20000, SEED = 1;

// What a part throws, as value() does where a result was not foreseen, is a failed check, and ends that part.
static void part(const char *name, const std::function<void()> &test)
{
    about(name);
    auto begin = std::chrono::steady_clock::now();
    try {
        test();
    } catch (const std::exception &thrown) {
        check(false, thrown.what());
    }
    std::chrono::duration<double> seconds = std::chrono::steady_clock::now() - begin;
    std::printf("%s: %.1f s\n", name, seconds.count());
}

int main(int count, char **words)
{
    std::setvbuf(stdout, nullptr, _IOLBF, 0);
    auto number = [&](int i, unsigned long usual) { return count > i ? std::strtoul(words[i], nullptr, 10) : usual; };
    unsigned long calls = number(1, CALLS), seed = number(2, SEED);
    if (count > 3 || calls == 0) {
        std::fprintf(stderr, "usage: %s [CALLS [SEED]]\n", words[0]);
        return 2;
    }
    part("calls", test_calls);
    part("edits", test_edits);
    part("transaction", test_transaction);
    part("walks", test_walks);
    part("words", test_words);
    part("marked", test_marked);
    part("settings", test_settings);
    part("receiver", test_receiver);
    part("packed_text", test_packed_text);
    part("same", [=] { test_same(calls, seed); });
    return closing() ? 0 : 1;
}
