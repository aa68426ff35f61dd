#include "check.h"

#include <atomic>
#include <cstdio>
#include <cstring>
#include <map>
#include <mutex>

// One place is printed this often; the closing lines say how often it failed beyond that.
static const size_t MOST_PRINTED = 20;

static std::atomic<size_t> good{0};
static std::mutex failures;
static size_t bad = 0;
static std::map<std::string, size_t> bad_at;
static thread_local std::string subject;

void passed(size_t checks) { good += checks; }

void about(const std::string &what) { subject = what; }

void failed(const At &at, const std::string &what)
{
    const char *slash = std::strrchr(at.file, '/');
    std::string place = std::string(slash ? slash + 1 : at.file) + ":" + std::to_string(at.line);
    std::string text;
    for (unsigned char c : subject.empty() ? what : subject + ": " + what)
        if (c >= ' ' && c <= '~')
            text += char(c);
        else {
            char code[8];
            std::snprintf(code, sizeof code, "\\x%02x", c);
            text += code;
        }
    std::lock_guard<std::mutex> one_at_a_time(failures);
    bad++;
    if (++bad_at[place] <= MOST_PRINTED)
        std::printf("FAILED: %s: %s\n", place.c_str(), text.c_str());
}

bool closing()
{
    for (const auto &[place, times] : bad_at)
        if (times > MOST_PRINTED)
            std::printf("FAILED: %s: %zu more\n", place.c_str(), times - MOST_PRINTED);
    std::printf("%zu passed, %zu failed\n", good.load(), bad);
    return bad == 0;
}
