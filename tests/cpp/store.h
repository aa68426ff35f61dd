// The store, from docs/SPEC.md: what it holds, and the rules that a good one obeys. Nothing here knows of the region.
#pragma once

#include <cstddef>
#include <cstdint>
#include <optional>
#include <string>
#include <string_view>
#include <vector>

constexpr size_t MOST_NAMES = 256;
constexpr size_t LONGEST_NAME = 64;
constexpr size_t MOST_LINES = 1024;
constexpr size_t MOST_ROWS = 160;
constexpr size_t MOST_ANCESTORS = 4;

enum : uint8_t { NONE = 0, OBJECT = 1, LINK = 2, BROKEN = 3 };
enum : uint8_t { FREE = 0, FOREIGN = 1, OURS = 2 };
enum : uint8_t { UPDATE = 1, DELETE = 2 };
enum : uint8_t { ANY = 0, MUST_EXIST = 1, MUST_NOT_EXIST = 2, MUST_EXIST_AND_MATCH = 3, EXISTING_MUST_MATCH = 4 };

// Where a value is found, or that none is.
enum : uint8_t {
    PLACE_LOOSE = 1,
    PLACE_PACKED = 2,
    PLACE_PACKED_BEHIND_BROKEN = 3,
    PLACE_ABSENT = 4,
    PLACE_ABSENT_BEHIND_BROKEN = 5,
};

// A loose value, or a target that may be missing. Only a loose value is broken.
struct Value {
    uint8_t kind = NONE;
    uint64_t number = 0;
};

inline bool operator==(const Value &a, const Value &b) { return a.kind == b.kind && a.number == b.number; }
inline bool operator!=(const Value &a, const Value &b) { return !(a == b); }

inline Value object(uint64_t number) { return {OBJECT, number}; }
inline Value link(uint64_t name) { return {LINK, name}; }

struct Entry {
    std::string name;
    Value loose;
    uint64_t packed = 0;
    uint8_t lock = FREE;
};

struct Line {
    uint16_t name = 0;
    uint64_t before = 0;
    uint64_t after = 0;
    uint16_t committer = 0;
    uint16_t message = 0;
};

struct Row {
    uint16_t name = 0;
    uint8_t kind = UPDATE;
    uint8_t log_only = 0;
    uint8_t force = 0;
    uint16_t message = 0;
    uint8_t expected = ANY;
    Value expected_target;
    Value new_target;
    uint8_t has_parent = 0;
    uint8_t parent = 0;
    uint64_t leaf_previous = 0;
};

// Numbers stand as they are in the region, good ones and bad ones, so that a store that breaks a rule can be written down.
struct Store {
    uint8_t setting = 0;
    std::vector<Entry> entries;
    uint8_t packed_lock = FREE;
    std::vector<Line> lines;
    uint8_t mode = 0; // 0 where nothing is prepared
    std::vector<Row> rows;
};

bool is_name(std::string_view name);
bool is_packable(std::string_view name);

// A name lies beneath another if it begins with that one and a '/'. The other is then above it.
bool is_beneath(std::string_view name, std::string_view above);

// What a name reads, and where that is found. Where R3 reads, the packed value is seen only if the packed table is opened.
Value reading(const Entry &entry, bool sees_packed = true);
uint8_t reading_place(const Entry &entry, bool sees_packed = true);

// What was there when the row was prepared.
Value existing(const Row &row);

// R2: the row counts; the rows open the packed table. R4: the row is direct; it keeps its lock. W1: it writes a loose value.
bool counts(const Store &store, const Row &row);
bool opens_packed(const Store &store);
bool is_direct(const Store &store, const Row &row);
bool keeps_lock(const Store &store, const Row &row);
bool writes_loose(const Store &store, const Row &row);

// A name above this one, or beneath it, has a loose value, a broken one too.
bool is_near_loose(const Store &store, std::string_view name);

// Names above and beneath others that have loose values, or would get them: 25, and what a good store has not.
class Conflicts {
public:
    // Of the store, its names, its loose values and its mode are looked at. They stay as they are meanwhile.
    explicit Conflicts(const Store &store);

    // A loose value lies beneath another.
    bool are_among_values() const;

    // The row whose turn it is is refused, where this is what it finds. If it is not, the later rows are judged beside it.
    bool refuse(const Row &row, const Value &there);

private:
    using Names = std::vector<std::string_view>; // in the order of their bytes

    static bool has_above(const Names &names, std::string_view name);
    static bool has_beginning(const Names &names, std::string_view begin);

    const Store &store;
    Names loose, written; // those that have a loose value, and those that earlier rows would write one of
};

// The objects of the log line that a row is due, if it is due one, and how many of the rows are due one.
struct Move {
    uint64_t before, after;
};
bool has_lines(const Store &store, uint16_t name);
std::optional<Move> due_line(const Store &store, const Row &row);
size_t due_lines(const Store &store);

// The store obeys every rule.
bool is_good(const Store &store);

// Makes ours the locks that the rows keep, and frees the others that were ours.
void take_locks(Store &store);

// Forgets the transaction: nothing is prepared, and the locks that were ours are free.
void forget_transaction(Store &store);
