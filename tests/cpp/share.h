// Work that is shared out among the machine's processors.
#pragma once

#include <algorithm>
#include <cstddef>
#include <thread>
#include <vector>

// Does the work of the numbers below count, as runs from a first number to an end. What is done for a number must not depend on
// the run that it falls in, since that depends on how many processors there are.
template <typename Work> void share_out(size_t count, const Work &work)
{
    size_t workers = std::max(1u, std::thread::hardware_concurrency()), share = count / workers + 1;
    std::vector<std::thread> threads;
    for (size_t i = 0; i < workers; i++)
        threads.emplace_back([&, i] { work(std::min(i * share, count), std::min((i + 1) * share, count)); });
    for (std::thread &thread : threads)
        thread.join();
}
