#include "store.h"

#include <algorithm>

// ---- names

static bool begins(std::string_view text, std::string_view part) { return text.substr(0, part.size()) == part; }

static bool ends(std::string_view text, std::string_view part)
{
    return text.size() >= part.size() && text.substr(text.size() - part.size()) == part;
}

static bool is_capital(char c) { return c >= 'A' && c <= 'Z'; }

static bool is_component(std::string_view part)
{
    for (char c : part)
        if (!is_capital(c) && !(c >= 'a' && c <= 'z') && !(c >= '0' && c <= '9') && c != '-' && c != '_' && c != '.')
            return false;
    return !part.empty() && part[0] != '.' && !ends(part, ".lock");
}

static bool is_special(std::string_view name)
{
    for (char c : name)
        if (!is_capital(c) && c != '_')
            return false;
    return !name.empty() && is_capital(name[0]);
}

static bool is_ref(std::string_view name)
{
    if (!begins(name, "refs/") || name.find("..") != name.npos || ends(name, "."))
        return false;
    for (size_t at = 5;;) {
        size_t slash = std::min(name.find('/', at), name.size());
        if (!is_component(name.substr(at, slash - at)))
            return false;
        if (slash == name.size())
            return true;
        at = slash + 1;
    }
}

bool is_name(std::string_view name) { return name.size() <= LONGEST_NAME && (is_special(name) || is_ref(name)); }

bool is_packable(std::string_view name)
{
    return begins(name, "refs/") && !begins(name, "refs/bisect/") && !begins(name, "refs/worktree/") &&
           !begins(name, "refs/rewritten/");
}

static bool logs_by_itself(uint8_t setting, std::string_view name)
{
    if (setting == 1)
        return name == "HEAD" || begins(name, "refs/heads/") || begins(name, "refs/remotes/") || begins(name, "refs/notes/");
    return setting == 2 && (name == "HEAD" || begins(name, "refs/"));
}

// ---- values

Value reading(const Entry &entry, bool sees_packed)
{
    if (entry.loose.kind == OBJECT || entry.loose.kind == LINK)
        return entry.loose;
    return sees_packed && entry.packed != 0 ? object(entry.packed) : Value{};
}

uint8_t reading_place(const Entry &entry, bool sees_packed)
{
    const bool packed = sees_packed && entry.packed != 0;
    switch (entry.loose.kind) {
    case NONE:
        return packed ? PLACE_PACKED : PLACE_ABSENT;
    case BROKEN:
        return packed ? PLACE_PACKED_BEHIND_BROKEN : PLACE_ABSENT_BEHIND_BROKEN;
    default:
        return PLACE_LOOSE;
    }
}

static bool is_good_target(const Store &store, const Value &value)
{
    return value.kind == OBJECT ? value.number != 0 : value.kind == LINK && value.number < store.entries.size();
}

static bool is_nothing(const Value &value) { return value == Value{}; }

static bool is_good_entry(const Store &store, const Entry &entry)
{
    bool loose = is_nothing(entry.loose) || entry.loose == Value{BROKEN, 0} || is_good_target(store, entry.loose);
    bool packed = entry.packed == 0 || is_packable(entry.name);
    return is_name(entry.name) && loose && packed && entry.lock <= OURS;
}

static bool is_good_line(const Store &store, const Line &line)
{
    return line.name < store.entries.size() && line.after != 0 && line.committer != 0;
}

// ---- rows

static bool is_registered(const Store &store, const Row &row) { return row.name < store.entries.size(); }

static std::string_view name_of(const Store &store, const Row &row)
{
    return is_registered(store, row) ? std::string_view(store.entries[row.name].name) : std::string_view();
}

Value existing(const Row &row) { return row.expected == MUST_EXIST_AND_MATCH ? row.expected_target : Value{}; }

bool is_direct(const Store &store, const Row &row)
{
    return store.mode == 3 && row.kind == UPDATE && row.new_target.kind == OBJECT && is_packable(name_of(store, row));
}

// An update to a link changes every value, the same link too.
static bool changes(const Row &row, const Value &there) { return row.new_target.kind == LINK || row.new_target != there; }

bool keeps_lock(const Store &store, const Row &row)
{
    return row.kind == DELETE || is_direct(store, row) || changes(row, existing(row));
}

static bool writes_loose_over(const Store &store, const Row &row, const Value &there)
{
    return row.kind == UPDATE && !row.log_only && !is_direct(store, row) && changes(row, there);
}

bool writes_loose(const Store &store, const Row &row) { return writes_loose_over(store, row, existing(row)); }

bool counts(const Store &store, const Row &row) { return !row.log_only && is_packable(name_of(store, row)); }

bool opens_packed(const Store &store)
{
    bool counting = false, counting_update = false;
    for (const Row &row : store.rows)
        if (counts(store, row)) {
            counting = true;
            counting_update |= row.kind == UPDATE && row.new_target.kind == OBJECT;
        }
    bool packed = std::any_of(store.entries.begin(), store.entries.end(), [](const Entry &e) { return e.packed != 0; });
    return counting && ((store.mode >= 2 && counting_update) || packed);
}

bool has_lines(const Store &store, uint16_t name)
{
    return std::any_of(store.lines.begin(), store.lines.end(), [=](const Line &line) { return line.name == name; });
}

static bool is_logged(const Store &store, const Row &row)
{
    bool asked = row.force || logs_by_itself(store.setting, name_of(store, row));
    return store.setting != 0 && (asked || has_lines(store, row.name));
}

// What a line of this row would tell, whether its name is logged or not.
static std::optional<Move> move_of(const Row &row)
{
    if (row.kind == DELETE)
        return {};
    if (row.new_target.kind == LINK) {
        if (row.expected != EXISTING_MUST_MATCH || row.expected_target.kind != OBJECT)
            return {};
        return Move{0, row.expected_target.number};
    }
    Value was = existing(row);
    Move move = {was.kind == OBJECT ? was.number : row.leaf_previous, row.new_target.number};
    if (move.before == move.after)
        return {};
    return move;
}

std::optional<Move> due_line(const Store &store, const Row &row)
{
    std::optional<Move> move = move_of(row);
    return move && is_logged(store, row) ? move : std::nullopt;
}

size_t due_lines(const Store &store)
{
    return size_t(std::count_if(store.rows.begin(), store.rows.end(),
                                [&](const Row &row) { return due_line(store, row).has_value(); }));
}

// ---- names above and beneath

bool is_beneath(std::string_view name, std::string_view above)
{
    return begins(name, above) && begins(name.substr(above.size()), "/");
}

bool is_near_loose(const Store &store, std::string_view name)
{
    return std::any_of(store.entries.begin(), store.entries.end(), [=](const Entry &entry) {
        return entry.loose.kind != NONE && (is_beneath(name, entry.name) || is_beneath(entry.name, name));
    });
}

Conflicts::Conflicts(const Store &of) : store(of)
{
    for (const Entry &entry : store.entries)
        if (entry.loose.kind != NONE)
            loose.push_back(entry.name);
    std::sort(loose.begin(), loose.end());
}

// One of the names is what stands before a slash of this one.
bool Conflicts::has_above(const Names &names, std::string_view name)
{
    for (size_t slash = name.find('/'); slash != name.npos; slash = name.find('/', slash + 1))
        if (std::binary_search(names.begin(), names.end(), name.substr(0, slash)))
            return true;
    return false;
}

// The names that begin with this stand side by side, and the first of them is the first that does not come before it.
bool Conflicts::has_beginning(const Names &names, std::string_view begin)
{
    const auto first = std::lower_bound(names.begin(), names.end(), begin);
    return first != names.end() && begins(*first, begin);
}

bool Conflicts::are_among_values() const
{
    return std::any_of(loose.begin(), loose.end(), [this](std::string_view name) { return has_above(loose, name); });
}

bool Conflicts::refuse(const Row &row, const Value &there)
{
    const std::string_view name = name_of(store, row);
    if (has_above(loose, name)) // whatever the row does
        return true;
    if (!writes_loose_over(store, row, there))
        return false;
    const std::string with_slash = std::string(name) + "/"; // what all names beneath begin with
    if (has_beginning(loose, with_slash) || has_above(written, name) || has_beginning(written, with_slash))
        return true;
    written.insert(std::lower_bound(written.begin(), written.end(), name), name);
    return false;
}

// ---- the fields of a row

// Those of one row, without the parent.
static bool is_good_row(const Store &store, const Row &row)
{
    bool flags = (row.kind == UPDATE || row.kind == DELETE) && row.log_only <= 1 && row.force <= 1 && row.has_parent <= 1;
    bool matches = row.expected == MUST_EXIST_AND_MATCH || row.expected == EXISTING_MUST_MATCH;
    bool expected = row.expected <= EXISTING_MUST_MATCH &&
                    (matches ? is_good_target(store, row.expected_target) : is_nothing(row.expected_target));
    bool change = row.kind == UPDATE ? is_good_target(store, row.new_target)
                                     : is_nothing(row.new_target) && row.force == 0 && row.message == 0;
    return is_registered(store, row) && flags && expected && change && (row.has_parent || row.parent == 0);
}

static bool has_good_ancestors(const Store &store, size_t place)
{
    size_t ancestors = 0;
    for (size_t at = place; store.rows[at].has_parent; at = store.rows[at].parent) {
        if (store.rows[at].parent >= at || ancestors == MOST_ANCESTORS)
            return false;
        ancestors++;
    }
    return true;
}

// ---- the rules

static bool are_apart(std::vector<std::string_view> names)
{
    std::sort(names.begin(), names.end());
    return std::adjacent_find(names.begin(), names.end()) == names.end();
}

static bool are_good_names(const Store &store)
{
    std::vector<std::string_view> names;
    for (const Entry &entry : store.entries) {
        if (!is_good_entry(store, entry))
            return false;
        names.push_back(entry.name);
    }
    return names.size() <= MOST_NAMES && are_apart(names);
}

static bool are_good_rows(const Store &store)
{
    std::vector<bool> seen(store.entries.size());
    for (size_t i = 0; i < store.rows.size(); i++) {
        const Row &row = store.rows[i];
        if (!is_good_row(store, row) || !has_good_ancestors(store, i) || seen[row.name])
            return false;
        seen[row.name] = true;
    }
    return store.mode <= 3 && store.rows.size() <= (store.mode == 0 ? 0 : MOST_ROWS);
}

static std::vector<bool> kept_locks(const Store &store)
{
    std::vector<bool> kept(store.entries.size());
    for (const Row &row : store.rows)
        if (is_registered(store, row) && keeps_lock(store, row))
            kept[row.name] = true;
    return kept;
}

static bool are_good_locks(const Store &store)
{
    std::vector<bool> kept = kept_locks(store);
    for (size_t n = 0; n < store.entries.size(); n++)
        if ((store.entries[n].lock == OURS) != kept[n])
            return false;
    return store.packed_lock <= OURS && (store.packed_lock == OURS) == opens_packed(store);
}

// No loose value lies beneath another, and 25 would refuse no row.
static bool are_without_conflicts(const Store &store)
{
    Conflicts conflicts(store);
    return !conflicts.are_among_values() &&
           std::none_of(store.rows.begin(), store.rows.end(),
                        [&](const Row &row) { return conflicts.refuse(row, existing(row)); });
}

bool is_good(const Store &store)
{
    if (store.setting > 2 || !are_good_names(store) || !are_good_rows(store) || !are_good_locks(store))
        return false;
    if (!are_without_conflicts(store))
        return false;
    for (const Line &line : store.lines)
        if (!is_good_line(store, line))
            return false;
    return store.lines.size() + due_lines(store) <= MOST_LINES;
}

void take_locks(Store &store)
{
    std::vector<bool> kept = kept_locks(store);
    for (size_t n = 0; n < store.entries.size(); n++)
        if (kept[n])
            store.entries[n].lock = OURS;
        else if (store.entries[n].lock == OURS)
            store.entries[n].lock = FREE;
    if (opens_packed(store))
        store.packed_lock = OURS;
    else if (store.packed_lock == OURS)
        store.packed_lock = FREE;
}

// Without rows no lock is kept.
void forget_transaction(Store &store)
{
    store.mode = 0;
    store.rows.clear();
    take_locks(store);
}
