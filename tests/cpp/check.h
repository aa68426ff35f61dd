// Counting checks, and printing those that fail.
#pragma once

#include <string>

// Where a check stands.
struct At {
    const char *file;
    int line;
};

#define AT_CALLER At at = {__builtin_FILE(), __builtin_LINE()}

// Counts a check. A failed one is printed with its place and what is wrong.
void passed(size_t checks = 1);
void failed(const At &at, const std::string &what);

// What this thread's checks are about from now on. It is printed with each that fails.
void about(const std::string &what);

inline void check(bool ok, const std::string &what, AT_CALLER)
{
    if (ok)
        passed();
    else
        failed(at, what);
}

// Prints the closing line, and says whether nothing failed.
bool closing();
