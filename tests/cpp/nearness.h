// How often names above and beneath others came into random calls: each case of 25, 21 of a load, and what is done close to these.
#pragma once

#include "calls.h"

#include <atomic>
#include <set>

// The counts of all walks together.
struct Nearness {
    enum Kind {
        value_above,   // 25: a name above the row's has a loose value
        value_beneath, // 25: a name beneath the row's has one, and the row would write one
        earlier_row,   // 25: an earlier row would write one too
        load,          // 21: a value that would lie above or beneath another
        packed_near,   // prepared: a row writes, and a name above or beneath has a packed value
        direct_above,  // prepared: a direct row, and a name beneath has a loose value
        delete_above,  // prepared: the same of a delete
        quiet_above,   // prepared: the same of an update that changes nothing
        remade,        // prepared: a row writes, where a commit has removed the loose value of a name above or beneath
    };
    static constexpr size_t KINDS = remade + 1;

    std::atomic<size_t> met[KINDS] = {};

    // Prints them, and checks that each came.
    void all_met(const char *what) const;
};

// One walk of calls.
class NearWalk {
public:
    explicit NearWalk(Nearness &all) : counts(all) {}

    // A call, what it gave, and the store before it and after it.
    void add(const Call &call, const Answer &given, const Store &before, const Store &after);

private:
    void add_row(const Row &row, const Store &prepared);
    void count(Nearness::Kind kind, bool came = true) { counts.met[kind] += came; }

    Nearness &counts;
    std::set<size_t> removed; // the names whose loose values commits removed
};
