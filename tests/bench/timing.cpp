#include "timing.h"

#include <algorithm>
#include <ctime>

static const size_t BATCHES = 15;
static const double BATCH = 4000; // microseconds that a batch lasts at least, if one run is not longer

// The time that this program has had of a processor, with what the system did for it: others that run meanwhile do not count.
static double used()
{
    timespec now;
    clock_gettime(CLOCK_PROCESS_CPUTIME_ID, &now);
    return double(now.tv_sec) * 1e6 + double(now.tv_nsec) / 1e3;
}

static double run(const Subject &subject, size_t times)
{
    const double began = used();
    for (size_t i = 0; i < times; i++)
        subject();
    return used() - began;
}

// How many runs make a batch. The first run is not counted: it may still have to be translated or read in.
static size_t runs_of(const Subject &subject)
{
    run(subject, 1);
    size_t times = 1;
    while (times < 1 << 20 && run(subject, times) < BATCH)
        times *= 2;
    return times;
}

static Timed summary(std::vector<double> batches)
{
    std::sort(batches.begin(), batches.end());
    return {batches.front(), batches[batches.size() / 2]};
}

std::vector<Timed> measure(const std::vector<Subject> &subjects)
{
    std::vector<size_t> times;
    for (const Subject &subject : subjects)
        times.push_back(runs_of(subject));
    std::vector<std::vector<double>> batches(subjects.size());
    for (size_t batch = 0; batch < BATCHES; batch++)
        for (size_t s = 0; s < subjects.size(); s++)
            batches[s].push_back(run(subjects[s], times[s]) / double(times[s]));
    std::vector<Timed> all;
    for (const std::vector<double> &one : batches)
        all.push_back(summary(one));
    return all;
}
