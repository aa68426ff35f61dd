// A store to try things on, and checks of results.
#pragma once

#include "check.h"
#include "dehlbazin.hpp"

#include <memory>
#include <vector>

using namespace dehlbazin;

inline Target object(uint64_t number) { return Target::object(ObjectNumber(number)); }
inline Target link(NameNumber to) { return Target::link(to); }

// A result that is no refusal. Where it is one, the words of it are printed.
template <typename Value> void done(const Result<Value> &result, AT_CALLER)
{
    const bool ok = result.done() && bool(result) && result.number() == 0 && result.get() && !result.refusal();
    check(ok, result.refusal() ? "refused: " + to_string(*result.refusal()) : "a result that is neither", at);
}

// A result that is a refusal for this reason, about these numbers: the places of its record.
template <typename Value>
void refused(const Result<Value> &result, Reason reason, const std::vector<uint64_t> &places = {}, AT_CALLER)
{
    const Refusal *refusal = result.refusal();
    const bool ok = refusal && !result.done() && !result.get() && result.number() == uint32_t(reason);
    check(ok && refusal->reason() == reason, "number " + std::to_string(result.number()), at);
    for (size_t i = 0; ok && i < 16; i++)
        check(refusal->place(i) == (i < places.size() ? places[i] : 0), "place " + std::to_string(i), at);
}

// A store with some names, none of which has a value.
struct Site {
    explicit Site(const std::vector<std::string> &names = {}, Setting setting = Setting::normal)
        : store(Store::start(region, setting).value())
    {
        for (const std::string &name : names)
            (void)store.add_name(name).value();
    }

    // The lines of a name's log: from, to, committer, message of each.
    std::vector<std::vector<uint64_t>> lines(NameNumber name) const
    {
        std::vector<std::vector<uint64_t>> all;
        for (const Line &line : store.lines(name)) {
            const uint64_t previous = line.previous ? line.previous->number() : 0;
            all.push_back({previous, line.next.number(), line.committer.number(), line.message.number()});
        }
        return all;
    }
    void reads(NameNumber name, const std::optional<Target> &value, Place place, AT_CALLER) const
    {
        const Result<Found> read = store.read_name(name);
        done(read, at);
        if (read)
            check(read.get()->target == value && read.get()->place == place, "reads " + to_string(*read.get()), at);
    }

    Region region{};
    Store store;
};

// The names of the marked examples: HEAD, which links to an aisle.
inline constexpr NameNumber head{0}, aisle{1};
struct Marked : Site {
    Marked() : Site({"HEAD", "refs/heads/aisle"}) { (void)store.load_loose(head, link(aisle)).value(); }
};

inline EditList list_of(std::initializer_list<Edit> edits) { return EditList::of(edits).value(); }
