#include "splits.h"

static Row row_of(const Edit &edit)
{
    Row row;
    row.name = edit.name;
    row.kind = edit.kind;
    row.log_only = edit.log_only;
    row.force = edit.force;
    row.message = edit.message;
    row.expected = edit.expected;
    row.expected_target = edit.expected_target;
    row.new_target = edit.new_target;
    return row;
}

// The child is what the parent was before, on another name. An update's expected value moves to it, a delete's stays as well.
static Row split_off(Row &parent, size_t place, uint16_t name)
{
    Row child = parent;
    child.name = name;
    child.has_parent = 1;
    child.parent = uint8_t(place);
    parent.log_only = 1;
    if (parent.kind == UPDATE) {
        parent.expected = ANY;
        parent.expected_target = {};
    }
    return child;
}

// One round: the children of the rows at these places are added. Gives the places of the children.
static std::vector<size_t> split_round(const Store &store, std::vector<Row> &rows, const std::vector<size_t> &newest)
{
    std::vector<size_t> children;
    for (size_t place : newest) {
        const Value &loose = store.entries[rows[place].name].loose;
        if (loose.kind != LINK)
            continue;
        children.push_back(rows.size());
        rows.push_back(split_off(rows[place], place, uint16_t(loose.number)));
    }
    return children;
}

std::optional<std::vector<Row>> split(const Store &store, const std::vector<Edit> &edits)
{
    std::vector<Row> rows;
    std::vector<size_t> newest; // the newest round's rows that have deref set: of the edits those that say so, and every child
    for (const Edit &edit : edits) {
        if (edit.deref)
            newest.push_back(rows.size());
        rows.push_back(row_of(edit));
    }
    for (size_t round = 1; round <= MOST_ROUNDS; round++)
        newest = split_round(store, rows, newest);
    if (!newest.empty())
        return {};
    return rows;
}

std::optional<uint16_t> least_repeated(const Store &store, const std::vector<Row> &rows)
{
    std::optional<uint16_t> least;
    std::vector<bool> seen(store.entries.size());
    for (const Row &row : rows) {
        if (seen[row.name] && (!least || store.entries[row.name].name < store.entries[*least].name))
            least = row.name;
        seen[row.name] = true;
    }
    return least;
}
