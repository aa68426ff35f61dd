#include "writes.h"

#include <algorithm>

bool operator==(const Write &x, const Write &y)
{
    bool moves = x.move.before == y.move.before && x.move.after == y.move.after;
    return x.kind == y.kind && x.name == y.name && moves && x.message == y.message && x.value == y.value &&
           x.objects == y.objects;
}

std::string describe(const Write &write)
{
    auto number = [](uint64_t n) { return " " + std::to_string(n); };
    std::string name = number(write.name), text = "packed";
    switch (write.kind) {
    case Kind::line:
        return "line" + name + number(write.move.before) + number(write.move.after) + number(write.message);
    case Kind::loose:
        return "loose" + name + (write.value.kind == LINK ? " link" : "") + number(write.value.number);
    case Kind::no_log:
        return "no_log" + name;
    case Kind::no_loose:
        return "no_loose" + name;
    case Kind::packed:
        for (const auto &[packed, object] : write.objects)
            text += number(packed) + ":" + number(object);
    }
    return text;
}

// W1: update rows in order, each row's line before its value.
static void add_updates(const Store &store, std::vector<Write> &list)
{
    for (const Row &row : store.rows) {
        if (row.kind != UPDATE)
            continue;
        if (std::optional<Move> due = due_line(store, row))
            list.push_back(writes::line(row.name, due->before, due->after, row.message));
        if (writes_loose(store, row))
            list.push_back(writes::loose(row.name, row.new_target));
    }
}

// W2: delete rows in order, log-only ones too.
static void add_removed_logs(const Store &store, std::vector<Write> &list)
{
    for (const Row &row : store.rows)
        if (row.kind == DELETE && has_lines(store, row.name))
            list.push_back(writes::no_log(row.name));
}

// W3: one write for all rows that have something for the packed table, if there are any. An object that is packed already is set
// again.
static void add_packed(const Store &store, std::vector<Write> &list)
{
    std::vector<std::pair<uint16_t, uint64_t>> objects;
    for (const Row &row : store.rows) {
        if (!counts(store, row))
            continue;
        if (row.kind == UPDATE && row.new_target.kind == OBJECT && store.mode >= 2)
            objects.emplace_back(row.name, row.new_target.number);
        if (row.kind == DELETE && store.entries[row.name].packed != 0)
            objects.emplace_back(row.name, 0);
    }
    if (opens_packed(store) && !objects.empty())
        list.push_back(writes::packed(objects));
}

// W4: rows in order, deletes and direct ones, but none that is log-only.
static void add_removed_values(const Store &store, std::vector<Write> &list)
{
    for (const Row &row : store.rows)
        if (!row.log_only && (row.kind == DELETE || is_direct(store, row)) && store.entries[row.name].loose.kind != NONE)
            list.push_back(writes::no_loose(row.name));
}

std::vector<Write> writes_of(const Store &store)
{
    std::vector<Write> list;
    add_updates(store, list);
    add_removed_logs(store, list);
    add_packed(store, list);
    add_removed_values(store, list);
    return list;
}

static void remove_lines(Store &store, uint16_t name)
{
    auto is_its = [=](const Line &line) { return line.name == name; };
    store.lines.erase(std::remove_if(store.lines.begin(), store.lines.end(), is_its), store.lines.end());
}

void make(Store &store, const Write &write, uint16_t committer)
{
    switch (write.kind) {
    case Kind::line:
        store.lines.push_back({write.name, write.move.before, write.move.after, committer, write.message});
        break;
    case Kind::loose:
        store.entries[write.name].loose = write.value;
        break;
    case Kind::no_log:
        remove_lines(store, write.name);
        break;
    case Kind::packed:
        for (const auto &[name, object] : write.objects)
            store.entries[name].packed = object;
        break;
    case Kind::no_loose:
        store.entries[write.name].loose = {};
        break;
    }
}
