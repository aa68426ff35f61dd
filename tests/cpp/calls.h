// The fifteen calls on a store, from docs/SPEC.md: the number and the places that each gives, and what it does to the store.
#pragma once

#include "store.h"

#include <array>

enum class Op {
    start,
    add_name,
    name_bytes,
    load_loose,
    load_packed,
    place_lock,
    lift_lock,
    prepare,
    commit,
    rollback,
    read_name,
    read_line,
    read_row,
    write_packed,
    read_packed,
};
constexpr size_t OPS = size_t(Op::read_packed) + 1;

// What a foreign lock is placed on. All 64 bits of a kind count, so it is as wide as the call's.
enum : uint64_t { LOCKABLE_NAME = 0, LOCKABLE_PACKED_TABLE = 1 };

// A call: its bytes, if it takes any, and its numbers in order. Of a buffer the bytes are those that stand there before.
struct Call {
    Op op;
    std::string bytes;
    uint64_t a = 0, b = 0, c = 0;
};

std::string describe(const Call &call);

namespace call {
inline Call start(uint64_t setting) { return {Op::start, {}, setting}; }
inline Call add_name(std::string_view name) { return {Op::add_name, std::string(name)}; }
inline Call name_bytes(uint64_t name) { return {Op::name_bytes, {}, name}; }
inline Call load_loose(uint64_t name, uint64_t kind, uint64_t number) { return {Op::load_loose, {}, name, kind, number}; }
inline Call load_packed(uint64_t name, uint64_t kind, uint64_t number) { return {Op::load_packed, {}, name, kind, number}; }
inline Call place_lock(uint64_t kind, uint64_t number) { return {Op::place_lock, {}, kind, number}; }
inline Call lift_lock(uint64_t kind, uint64_t number) { return {Op::lift_lock, {}, kind, number}; }
inline Call place_lock_on_name(uint64_t name) { return place_lock(LOCKABLE_NAME, name); }
inline Call lift_lock_of_name(uint64_t name) { return lift_lock(LOCKABLE_NAME, name); }
inline Call place_lock_on_packed(uint64_t number = 0) { return place_lock(LOCKABLE_PACKED_TABLE, number); }
inline Call lift_lock_of_packed(uint64_t number = 0) { return lift_lock(LOCKABLE_PACKED_TABLE, number); }
inline Call prepare(std::string_view list, uint64_t mode) { return {Op::prepare, std::string(list), mode}; }
inline Call commit(uint64_t committer, uint64_t allowance) { return {Op::commit, {}, committer, allowance}; }
inline Call rollback() { return {Op::rollback, {}}; }
inline Call read_name(uint64_t name) { return {Op::read_name, {}, name}; }
inline Call read_line(uint64_t name, uint64_t place) { return {Op::read_line, {}, name, place}; }
inline Call read_row(uint64_t place) { return {Op::read_row, {}, place}; }
inline Call write_packed(std::string_view buffer) { return {Op::write_packed, std::string(buffer)}; }
inline Call read_packed(std::string_view text) { return {Op::read_packed, std::string(text)}; }
} // namespace call

struct Answer {
    uint32_t number = 0;
    std::array<uint64_t, 16> places{};
};

Answer answer(uint32_t number, const std::vector<uint64_t> &places = {});
inline bool operator==(const Answer &x, const Answer &y) { return x.number == y.number && x.places == y.places; }

// What a call on a good store gives. Only a call that gives 0, 16 or 17 changes the store.
Answer answer_of(Store &store, const Call &call);

// What a call on a good store leaves of its bytes: the same, but where it writes into a buffer.
std::string left_of(const Store &store, const Call &call);
inline bool is_refusal(uint32_t number) { return number != 0 && number != 16 && number != 17; }
