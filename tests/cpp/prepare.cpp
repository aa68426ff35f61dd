#include "prepare.h"

#include "splits.h"

#include <algorithm>

// ---- R3: one row's turn. Here an answer with number 0 says that the row passes.

static uint16_t topmost_name(const std::vector<Row> &rows, size_t place)
{
    while (rows[place].has_parent)
        place = rows[place].parent;
    return rows[place].name;
}

// The refusals with their places. A target takes two of them.
static Answer must_not_exist(const Row &row, const Value &there)
{
    return answer(10, {row.name, there.kind, there.number, row.new_target.kind, row.new_target.number});
}

static Answer must_exist(const Row &row)
{
    if (row.kind == DELETE)
        return answer(9, {row.name});
    Value expected = row.expected == MUST_EXIST ? object(0) : row.expected_target;
    return answer(11, {row.name, expected.kind, expected.number});
}

static Answer out_of_date(const Row &row, const Value &there)
{
    return answer(12, {row.name, row.expected_target.kind, row.expected_target.number, there.kind, there.number});
}

static Answer judge(const Row &row, const Value &there)
{
    bool nothing = there == Value{}, matches = there == row.expected_target;
    switch (row.expected) {
    case MUST_EXIST:
        return nothing ? must_exist(row) : answer(0);
    case MUST_NOT_EXIST:
        if (row.kind == DELETE)
            return answer(13, {row.name});
        return nothing || there == row.new_target ? answer(0) : must_not_exist(row, there);
    case MUST_EXIST_AND_MATCH:
        return nothing ? must_exist(row) : matches ? answer(0) : out_of_date(row, there);
    case EXISTING_MUST_MATCH:
        return nothing || matches ? answer(0) : out_of_date(row, there);
    default:
        return answer(0);
    }
}

// R5: what the row expects now, if it is an object, is the leaf-previous of all its ancestors.
static void tell_ancestors(std::vector<Row> &rows, size_t place)
{
    const Value leaf = rows[place].expected_target;
    if (leaf.kind != OBJECT)
        return;
    while (rows[place].has_parent) {
        place = rows[place].parent;
        rows[place].leaf_previous = leaf.number;
    }
}

static Answer take_turn(const Store &store, std::vector<Row> &rows, size_t place, bool opened, Conflicts &conflicts)
{
    Row &row = rows[place];
    const Entry &entry = store.entries[row.name];
    Value there = reading(entry, opened);
    if (conflicts.refuse(row, there))
        return answer(25, {row.name});
    if (entry.lock == FOREIGN)
        return answer(8, {topmost_name(rows, place)});
    Answer judged = judge(row, there);
    if (judged.number != 0)
        return judged;
    if (there != Value{}) {
        row.expected = MUST_EXIST_AND_MATCH;
        row.expected_target = there;
    }
    tell_ancestors(rows, place);
    return answer(0);
}

// ---- the rows together

// R2 to R5 on a store that has its mode and its rows, and log lines after them. It may be changed where it is refused.
static Answer judge_rows(Store &after)
{
    bool any_counts = std::any_of(after.rows.begin(), after.rows.end(), [&](const Row &row) { return counts(after, row); });
    if (any_counts && after.packed_lock == FOREIGN)
        return answer(7);
    bool opened = opens_packed(after);
    Conflicts conflicts(after);
    for (size_t place = 0; place < after.rows.size(); place++) {
        Answer turn = take_turn(after, after.rows, place, opened, conflicts);
        if (turn.number != 0)
            return turn;
    }
    if (after.lines.size() + due_lines(after) > MOST_LINES)
        return answer(14);
    take_locks(after);
    return answer(0, {after.rows.size()});
}

Answer prepare(Store &store, std::string_view list, uint64_t mode)
{
    if (store.mode != 0)
        return answer(15);
    std::optional<std::vector<Edit>> edits = read_list(list);
    if (!edits || mode < 1 || mode > 3)
        return answer(2);
    if (std::optional<uint64_t> number = first_unregistered(*edits, store.entries.size()))
        return answer(3, {*number});
    std::optional<std::vector<Row>> rows = split(store, *edits);
    if (!rows)
        return answer(4);
    if (std::optional<uint16_t> name = least_repeated(store, *rows))
        return answer(6, {*name});

    Store after = store;
    after.mode = uint8_t(mode);
    after.rows = *rows;
    Answer given = judge_rows(after);
    if (given.number == 0)
        store = after;
    return given;
}
