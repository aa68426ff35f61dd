// The writes of commit, from docs/SPEC.md: W1 to W4, in order. A check can state such a list too.
#pragma once

#include "store.h"

#include <utility>

enum class Kind { line, loose, no_log, packed, no_loose };

// One write: what it is, the name, and what comes to stand there. The packed table is written for many names at once; a packed
// value that is removed stands as object 0.
struct Write {
    Kind kind;
    uint16_t name = 0;
    Move move = {};
    uint16_t message = 0;
    Value value;
    std::vector<std::pair<uint16_t, uint64_t>> objects;
};

bool operator==(const Write &x, const Write &y);
std::string describe(const Write &write);

namespace writes {
inline Write line(uint16_t name, uint64_t before, uint64_t after, uint16_t message = 0)
{
    return {Kind::line, name, {before, after}, message, {}, {}};
}
inline Write loose(uint16_t name, const Value &value) { return {Kind::loose, name, {}, 0, value, {}}; }
inline Write no_log(uint16_t name) { return {Kind::no_log, name, {}, 0, {}, {}}; }
inline Write packed(const std::vector<std::pair<uint16_t, uint64_t>> &objects)
{
    return {Kind::packed, 0, {}, 0, {}, objects};
}
inline Write no_loose(uint16_t name) { return {Kind::no_loose, name, {}, 0, {}, {}}; }
} // namespace writes

// All the writes of a prepared transaction. No two rows have one name, so no write changes whether a later one is to be made: the
// list can be known before the first of them.
std::vector<Write> writes_of(const Store &store);

// Makes one write. The committer stands in a log line and nowhere else.
void make(Store &store, const Write &write, uint16_t committer);
