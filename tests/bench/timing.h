// How much of a processor's time things take, side by side. They run in turns, batch by batch, so that a busy moment of the machine
// meets them all; of the batches of each the least counts, since whatever else runs can only make one longer.
#pragma once

#include <functional>
#include <vector>

using Subject = std::function<void()>;

// In microseconds for one run.
struct Timed {
    double least = 0;
    double middle = 0; // the median of the batches

    double spread() const { return least > 0 ? (middle - least) / least : 0; }
};

std::vector<Timed> measure(const std::vector<Subject> &subjects);
