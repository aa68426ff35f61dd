// Demand 3: what names may read where a commit is stopped. Its sentences are judged on what the archive itself reads, stop after
// stop; what our own store's commit does has no part in it.
#pragma once

#include "check.h"
#include "lent.h"

class Demand3 {
public:
    // A store with a transaction that calls prepared, and its region as the archive has it: what is read there is the old value.
    Demand3(const Store &prepared, const Lent &region);
    Demand3(const Demand3 &) = delete;

    // The region that a commit of a fresh copy left. Stops are looked at in the order of their allowance, for one committer.
    // `whole` says that it was not stopped: all writes are made.
    void look(const Lent &region, bool whole, const std::string &what, const At &at);

private:
    struct Name {
        const Row *row = nullptr; // of the name, if it has one
        Value old, last;          // what it read before, and at the last stop
    };

    Value new_value(const Name &name) const;
    bool is_update_due(const std::vector<Value> &reads) const;
    void look_at_name(size_t n, const Value &reads, const std::string &what, const At &at);
    void look_at_deletions(const Lent &region, const std::vector<Value> &reads, const std::string &what, const At &at) const;

    const uint8_t mode;
    const std::vector<Row> rows;
    std::vector<Name> names;
};
