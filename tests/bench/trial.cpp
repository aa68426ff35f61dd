#include "trial.h"

#include "peers.h"

#include <cstdio>
#include <cstdlib>
#include <cstring>

// What is computed goes here, so that no compiler leaves it out.
static volatile uint64_t sink;

// A region to call on, which is put back before the calls if they change it.
class Bench {
public:
    explicit Bench(const Trial &trial) : trial(trial), bytes(trial.region)
    {
        for (const Call &call : trial.calls)
            changes |= is_change(call.op);
    }

    void restore()
    {
        if (changes)
            std::memcpy(bytes.data(), trial.region.data(), bytes.size());
    }

    uint32_t run(const Archive &archive)
    {
        restore();
        uint32_t number = 0;
        for (const Call &call : trial.calls)
            number = make(archive, call, bytes.data(), record);
        return number;
    }

    uint32_t run_by_hand()
    {
        uint32_t number = 0;
        const Bytes *from = &trial.region;
        for (const Call &call : trial.calls) {
            number = call_by_hand(*from, call, left);
            from = &left;
        }
        return number;
    }

    // All of them give the same number and leave the same bytes, or there is nothing to compare.
    void agree()
    {
        uint32_t number = run(NOW), by_hand = run_by_hand();
        bool same = number == by_hand && (!changes || number != 0 || bytes == left);
        const Bytes kept = bytes;
        if (BEFORE)
            same &= run(*BEFORE) == number && bytes == kept;
        if (!same) {
            std::fprintf(stderr, "bench: %s: the archives, or the calls by hand, do not agree\n", trial.what.c_str());
            std::exit(1);
        }
        run(NOW);
    }

    uint64_t place() const { return dehlbazin_place(record, 0); }

private:
    const Trial &trial;
    Bytes bytes, left;
    uint8_t record[DEHLBAZIN_ANSWER_SIZE] = {};
    bool changes = false;
};

// The median is taken off by the least too, since a slow moment of the part is none of the whole.
static Timed without(const Timed &all, const Timed &part) { return {all.least - part.least, all.middle - part.least}; }

Result run(const Trial &trial, const Subject &other)
{
    Bench bench(trial);
    Result result;
    bench.agree();
    result.number = bench.run(NOW);
    result.place = bench.place();

    std::vector<Subject> subjects = {[&] { bench.restore(); },
                                     [&] { sink = bench.run(NOW); },
                                     [&] { sink = sum(trial.region); },
                                     [&] { sink = check_by_hand(trial.region); },
                                     [&] { sink = bench.run_by_hand(); }};
    if (BEFORE)
        subjects.push_back([&] { sink = bench.run(*BEFORE); });
    if (other)
        subjects.push_back(other);
    std::vector<Timed> timed = measure(subjects);

    result.now = without(timed[1], timed[0]);
    result.sum = timed[2];
    result.checks = timed[3];
    result.by_hand = timed[4];
    if (BEFORE)
        result.before = without(timed[5], timed[0]);
    if (other)
        result.other = timed.back();
    return result;
}
