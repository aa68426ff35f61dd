#include "nearness.h"

#include "check.h"

#include <algorithm>
#include <cstdio>

void Nearness::all_met(const char *what) const
{
    static const char *const words[KINDS] = {
        "a value above", "a value beneath", "an earlier row", "loads", "packed near", "direct above", "delete above", "quiet above",
        "remade",
    };
    std::printf("names above and beneath in %s:", what);
    for (size_t kind = 0; kind < KINDS; kind++)
        std::printf("%s %s %zu", kind > 0 ? "," : "", words[kind], met[kind].load());
    std::printf("\n");
    for (size_t kind = 0; kind < KINDS; kind++)
        check(met[kind] > 0, std::string("names above and beneath never came so in ") + what + ": " + words[kind]);
}

template <typename Test> static bool some(const Store &store, const Test &test)
{
    return std::any_of(store.entries.begin(), store.entries.end(), test);
}

static bool is_near(std::string_view x, std::string_view y) { return is_beneath(x, y) || is_beneath(y, x); }

static bool has_loose_above(const Store &store, std::string_view name)
{
    return some(store, [=](const Entry &entry) { return entry.loose.kind != NONE && is_beneath(name, entry.name); });
}

static bool has_loose_beneath(const Store &store, std::string_view name)
{
    return some(store, [=](const Entry &entry) { return entry.loose.kind != NONE && is_beneath(entry.name, name); });
}

// Which case of 25 it was, by the row's own name.
static Nearness::Kind case_of(const Store &before, std::string_view name)
{
    if (has_loose_above(before, name))
        return Nearness::value_above;
    return has_loose_beneath(before, name) ? Nearness::value_beneath : Nearness::earlier_row;
}

// A load that would be done if no other value were near.
static bool is_value(const Call &load)
{
    return load.b == BROKEN ? load.c == 0 : load.b == LINK || (load.b == OBJECT && load.c != 0);
}

void NearWalk::add_row(const Row &row, const Store &prepared)
{
    const std::string_view name = prepared.entries[row.name].name;
    const bool above = !row.log_only && has_loose_beneath(prepared, name), direct = is_direct(prepared, row);
    const bool writes = writes_loose(prepared, row);
    count(Nearness::direct_above, above && direct);
    count(Nearness::delete_above, above && row.kind == DELETE);
    count(Nearness::quiet_above, above && row.kind == UPDATE && !direct && !writes);
    count(Nearness::packed_near,
          writes && some(prepared, [=](const Entry &entry) { return entry.packed != 0 && is_near(name, entry.name); }));
    count(Nearness::remade, writes && std::any_of(removed.begin(), removed.end(),
                                                  [&](size_t n) { return is_near(name, prepared.entries[n].name); }));
}

void NearWalk::add(const Call &call, const Answer &given, const Store &before, const Store &after)
{
    if (before.entries.empty()) // as after a start
        removed.clear();
    if (call.op == Op::prepare && given.number == 25)
        count(case_of(before, before.entries[given.places[0]].name));
    if (call.op == Op::prepare && given.number == 0)
        for (const Row &row : after.rows)
            add_row(row, after);
    count(Nearness::load, call.op == Op::load_loose && given.number == 21 && is_value(call));
    if (call.op == Op::commit)
        for (size_t n = 0; n < before.entries.size(); n++)
            if (before.entries[n].loose.kind != NONE && after.entries[n].loose.kind == NONE)
                removed.insert(n);
}
