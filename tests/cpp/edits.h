// The edit list that prepare takes, from docs/SPEC.md: its records, and the bytes that stand for them.
#pragma once

#include "store.h"

#include <optional>

constexpr size_t MOST_EDITS = 32;
constexpr size_t LIST_HEADER = 4;
constexpr size_t RECORD = 27;

// Where the fields of a record stand in it.
constexpr size_t AT_EDIT_KIND = 0;
constexpr size_t AT_DEREF = 1;
constexpr size_t AT_LOG = 2;
constexpr size_t AT_FORCE = 3;
constexpr size_t AT_EXPECTED = 4;
constexpr size_t AT_EXPECTED_TARGET = 5;
constexpr size_t AT_NEW_TARGET = 14;
constexpr size_t AT_NAME = 23;
constexpr size_t AT_MESSAGE = 25;

// Numbers stand as they are in the list, good ones and bad ones, so that a malformed record can be written down.
struct Edit {
    uint8_t kind = UPDATE;
    uint8_t deref = 0;
    uint8_t log_only = 0;
    uint8_t force = 0;
    uint8_t expected = ANY;
    Value expected_target;
    Value new_target;
    uint16_t name = 0;
    uint16_t message = 0;
};

// The bytes of a list, whether it is well formed or not. Its count fits in a byte.
std::string write_list(const std::vector<Edit> &edits);

// The edits of a well-formed list.
std::optional<std::vector<Edit>> read_list(std::string_view list);

// The first number in the list, by place, that is a name's and too large for so many names.
std::optional<uint64_t> first_unregistered(const std::vector<Edit> &edits, size_t names);
