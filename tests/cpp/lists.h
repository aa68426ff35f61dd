// Edit lists, each with a store that it is for, and what prepare says to it there. Every number that prepare gives is among them.
#pragma once

#include "calls.h"

struct Listed {
    std::string what;
    Store store;
    std::string list;
    uint64_t mode;
    Answer answer;
};

std::vector<Listed> all_listed();

// The longest list: 32 edits, 868 bytes, in which few bytes are 0. It is for plain(32).
std::string longest_list();
