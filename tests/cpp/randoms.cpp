#include "randoms.h"

#include "calls.h"
#include "edits.h"
#include "samples.h"

#include <algorithm>

// ---- numbers and names

uint64_t object_number(Dice &dice)
{
    switch (dice.below(6)) {
    case 0:
        return 1;
    case 1:
        return ~uint64_t(0) - dice.below(2);
    case 2:
        return dice.any() | 1;
    case 3:
        return uint64_t(1) << dice.below(64);
    default:
        return 1 + dice.below(5);
    }
}

uint64_t number_near(Dice &dice, uint64_t n)
{
    if (n > 0 && !dice.once_in(6))
        return dice.below(n);
    const uint64_t past[] = {n, n + 1, 255, 256, 65535, dice.one_of(too_large(dice.below(n + 1))), dice.any()};
    return dice.one_of(past);
}

std::string good_name(Dice &dice)
{
    static const char *const places[] = {
        "refs/", "refs/heads/", "refs/remotes/o/", "refs/notes/", "refs/tags/",
        "refs/bisect/", "refs/worktree/", "refs/rewritten/", "refs/headsx/", "refs/a./",
    };
    static const char *const special[] = {"HEAD", "HEADS", "FETCH_HEAD", "A", "ORIG_HEAD", "B_"};
    if (dice.once_in(5))
        return dice.one_of(special);
    std::string name = dice.one_of(places);
    return name + std::to_string(dice.below(40));
}

std::string some_name(Dice &dice)
{
    std::string name = good_name(dice);
    switch (dice.below(8)) {
    case 0: // one byte changed
        name[dice.below(name.size())] = char(dice.any());
        break;
    case 1: { // one byte more, of those that matter
        char byte = dice.one_of("./_-aA0 ");
        name.insert(name.begin() + long(dice.below(name.size() + 1)), byte);
        break;
    }
    case 2:
        name += dice.one_of(std::vector<std::string>{".lock", ".", "/", "..", "/a", ".lock/b", "./b", ".lockb"});
        break;
    case 3: // about as long as a name can be
        name += std::string(dice.below(70), 'x');
        break;
    case 4:
        name.resize(dice.below(name.size() + 1));
        break;
    }
    return name;
}

std::string name_near(Dice &dice, const Store &s)
{
    if (s.entries.empty())
        return good_name(dice);
    std::string name = s.entries[dice.below(s.entries.size())].name;
    if (dice.once_in(6)) {
        name.resize(std::min(name.rfind('/'), name.size()));
    } else {
        name += dice.one_of(std::string("/////-.")); // the last two come before a '/' in the order of bytes
        name += std::to_string(dice.below(3));
    }
    return is_name(name) ? name : good_name(dice);
}

// ---- stores

static Value target(Dice &dice, const Store &s)
{
    return dice.once_in(3) ? link(dice.below(s.entries.size())) : object(object_number(dice));
}

static Row random_row(Dice &dice, const Store &s, uint16_t name)
{
    Row row;
    row.name = name;
    row.log_only = dice.once_in(3);
    row.expected = uint8_t(dice.below(5));
    if (row.expected >= 3)
        row.expected_target = target(dice, s);
    if (dice.once_in(3)) {
        row.kind = DELETE;
    } else {
        row.force = dice.once_in(3);
        row.message = uint16_t(dice.any());
        bool same = row.expected == MUST_EXIST_AND_MATCH && dice.once_in(2);
        row.new_target = same ? row.expected_target : target(dice, s);
        if (row.expected_target.kind == LINK && row.expected_target.number != 0 && dice.once_in(3))
            row.new_target = object(row.expected_target.number);
    }
    if (dice.once_in(2))
        row.leaf_previous = dice.once_in(2) && row.new_target.kind == OBJECT ? row.new_target.number : dice.any();
    return row;
}

static void add_rows(Dice &dice, Store &s)
{
    s.mode = uint8_t(1 + dice.below(3));
    std::vector<size_t> ancestors;
    for (uint16_t n = 0; n < s.entries.size() && s.rows.size() < MOST_ROWS; n++) {
        if (dice.once_in(3))
            continue;
        Row row = random_row(dice, s, n);
        size_t parent = s.rows.empty() ? 0 : dice.below(s.rows.size()), above = 0;
        if (!s.rows.empty() && dice.once_in(2) && ancestors[parent] < MOST_ANCESTORS) {
            row.has_parent = 1;
            row.parent = uint8_t(parent);
            above = ancestors[parent] + 1;
        }
        s.rows.push_back(row);
        ancestors.push_back(above);
    }
    for (size_t i = s.rows.size(); i-- > 1;) // names in any order; fields and parents stay
        std::swap(s.rows[i].name, s.rows[dice.below(i + 1)].name);
}

static void add_names(Dice &dice, Store &s, size_t names, bool deep)
{
    for (size_t tries = 0; tries < 4 * names && s.entries.size() < names; tries++)
        answer_of(s, call::add_name(deep && dice.once_in(2) ? name_near(dice, s) : good_name(dice)));
    while (s.entries.size() < names)
        answer_of(s, call::add_name("refs/heads/more-" + std::to_string(s.entries.size())));
}

static void add_values(Dice &dice, Store &s)
{
    bool packs = !dice.once_in(3);
    for (Entry &entry : s.entries) {
        if (dice.once_in(2))
            entry.loose = dice.once_in(4) ? Value{BROKEN, 0} : target(dice, s);
        if (packs && dice.once_in(3) && is_packable(entry.name))
            entry.packed = object_number(dice);
        entry.lock = dice.once_in(4);
    }
    s.packed_lock = dice.once_in(3);
}

// As many lines as these, or as have room beside those that the rows are due.
static void add_lines(Dice &dice, Store &s, size_t lines)
{
    uint64_t names = s.entries.size();
    for (size_t i = 0; i < lines && names > 0; i++) {
        uint64_t before = dice.once_in(3) ? 0 : object_number(dice);
        s.lines.push_back({uint16_t(dice.below(names)), before, object_number(dice), uint16_t(1 + dice.below(65535)),
                           uint16_t(dice.any())});
    }
    while (s.lines.size() + due_lines(s) > MOST_LINES)
        s.lines.pop_back();
}

// No loose value lies beneath another any more, whichever of the two goes. None lies above the name of a row, and a row that would
// write where 25 forbids it writes the log only.
static void set_apart(Dice &dice, Store &s)
{
    size_t names = s.entries.size(), first = names > 0 ? dice.below(names) : 0;
    for (size_t i = 0; i < names; i++) {
        Entry &entry = s.entries[(first + i) % names];
        if (is_near_loose(s, entry.name))
            entry.loose = {};
    }
    for (const Row &row : s.rows)
        for (Entry &entry : s.entries)
            if (is_beneath(s.entries[row.name].name, entry.name))
                entry.loose = {};
    Conflicts conflicts(s);
    for (Row &row : s.rows)
        if (conflicts.refuse(row, existing(row)))
            row.log_only = 1;
}

// In a deep one many names lie beneath others.
static Store without_log(Dice &dice, size_t names, bool with_rows, bool deep)
{
    Store s;
    s.setting = uint8_t(dice.below(3));
    add_names(dice, s, names, deep);
    add_values(dice, s);
    if (with_rows)
        add_rows(dice, s);
    return s;
}

Store random_store(Dice &dice, size_t names, size_t lines, bool with_rows)
{
    Store s = without_log(dice, names, with_rows, dice.once_in(2));
    set_apart(dice, s);
    take_locks(s);
    add_lines(dice, s, lines);
    return s;
}

Store careless_store(Dice &dice, size_t names, size_t lines, bool with_rows)
{
    Store s = without_log(dice, names, with_rows, true);
    take_locks(s);
    add_lines(dice, s, lines);
    return s;
}

Store ready_store(Dice &dice)
{
    const size_t some_names[] = {1, 2, 5, 9, 14, 20, 60, 256}, some_lines[] = {0, 0, 3, 20, 1016, 1020, 1022, 1023, 1024};
    size_t names = dice.one_of(some_names), lines = dice.one_of(some_lines);
    return ready_store(dice, names, lines);
}

Store ready_store(Dice &dice, size_t names, size_t lines)
{
    Store s = random_store(dice, names, lines, false);
    bool held = dice.once_in(3);
    for (Entry &entry : s.entries) {
        if (!held || !dice.once_in(4))
            entry.lock = FREE;
        if (dice.once_in(4))
            entry.loose = link(dice.below(names));
    }
    if (!dice.once_in(5))
        s.packed_lock = FREE;
    set_apart(dice, s);
    return s;
}

// ---- edit lists

// What an edit is judged by if nothing hinders it: of an update through links, what the last of them leads to.
static Value judged_value(const Store &s, const Edit &edit)
{
    size_t name = edit.name;
    for (size_t hop = 0; hop < MOST_ANCESTORS && edit.deref && edit.kind == UPDATE && s.entries[name].loose.kind == LINK; hop++)
        name = s.entries[name].loose.number;
    return reading(s.entries[name]);
}

static void expect_something(Dice &dice, const Store &s, Edit &edit)
{
    if (dice.once_in(2))
        return;
    edit.expected = uint8_t(1 + dice.below(4));
    Value there = judged_value(s, edit);
    if (edit.expected >= MUST_EXIST_AND_MATCH)
        edit.expected_target = there.kind == NONE || dice.once_in(4) ? target(dice, s) : there;
    else if (edit.expected == MUST_EXIST && there.kind == NONE && !dice.once_in(4))
        edit.expected = ANY;
    else if (edit.expected == MUST_NOT_EXIST && edit.kind == DELETE && dice.once_in(2))
        edit.expected = ANY;
}

static Edit random_edit(Dice &dice, const Store &s, uint16_t name)
{
    Edit edit;
    edit.name = name;
    edit.kind = dice.once_in(3) ? DELETE : UPDATE;
    edit.deref = dice.once_in(2);
    edit.log_only = dice.once_in(5);
    if (edit.kind == UPDATE) {
        edit.force = dice.once_in(4);
        edit.message = uint16_t(dice.any());
        Value there = judged_value(s, edit);
        edit.new_target = there.kind != NONE && dice.once_in(3) ? there : target(dice, s);
    }
    expect_something(dice, s, edit);
    return edit;
}

// Numbers of names, each of them once for the most part, and all of them registered for the most part.
static std::vector<uint16_t> names_to_edit(Dice &dice, const Store &s)
{
    const size_t counts[] = {0, 1, 1, 1, 2, 2, 3, 4, 6, dice.below(34)};
    size_t count = std::min(dice.one_of(counts), s.entries.size());
    std::vector<uint16_t> all, names;
    for (uint16_t n = 0; n < s.entries.size(); n++)
        all.push_back(n);
    for (size_t i = 0; i < count; i++) {
        std::swap(all[i], all[i + dice.below(all.size() - i)]);
        names.push_back(all[i]);
    }
    if (!names.empty() && dice.once_in(12))
        names.push_back(dice.one_of(names));
    return names;
}

static void change_bytes(Dice &dice, std::string &list)
{
    switch (dice.below(4)) {
    case 0:
        list.resize(dice.below(list.size() + 1));
        break;
    case 1: {
        size_t more = 1 + dice.below(30);
        list += std::string(more, char(dice.below(3)));
        break;
    }
    case 2: // in the frame
        list[dice.below(LIST_HEADER)] = char(dice.below(40));
        break;
    default: // anywhere
        list[dice.below(list.size())] = char(dice.once_in(2) ? dice.any() : dice.below(6));
    }
}

// A number in the list that is most likely no name's.
static void change_number(Dice &dice, const Store &s, std::vector<Edit> &edits)
{
    if (edits.empty())
        return;
    Edit &edit = edits[dice.below(edits.size())];
    uint64_t number = number_near(dice, s.entries.size());
    if (edit.new_target.kind == LINK && dice.once_in(2))
        edit.new_target.number = number;
    else if (edit.expected_target.kind == LINK)
        edit.expected_target.number = number;
    else
        edit.name = uint16_t(number);
}

std::string random_list(Dice &dice, const Store &store)
{
    std::vector<Edit> edits;
    for (uint16_t name : names_to_edit(dice, store))
        edits.push_back(random_edit(dice, store, name));
    if (dice.once_in(10))
        change_number(dice, store, edits);
    std::string list = write_list(edits);
    if (dice.once_in(10))
        change_bytes(dice, list);
    return list;
}
