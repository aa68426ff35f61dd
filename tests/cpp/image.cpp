#include "image.h"

#include "fields.h"

#include <algorithm>
#include <cstdlib>
#include <cstring>

// ---- writing

static void write_row(Pen pen, const Row &row)
{
    pen.number(row.name, 2);
    pen.number(row.kind, 1);
    pen.number(row.log_only, 1);
    pen.number(row.force, 1);
    pen.number(row.message, 2);
    pen.number(row.expected, 1);
    pen.value(row.expected_target);
    pen.value(row.new_target);
    pen.number(row.has_parent, 1);
    pen.number(row.parent, 1);
    pen.number(row.leaf_previous, 8);
}

static void write_line(Pen pen, const Line &line)
{
    pen.number(line.name, 2);
    pen.number(line.before, 8);
    pen.number(line.after, 8);
    pen.number(line.committer, 2);
    pen.number(line.message, 2);
}

Bytes encode(const Store &store)
{
    if (store.entries.size() > MOST_NAMES || store.lines.size() > MOST_LINES || store.rows.size() > MOST_ROWS)
        std::abort();
    Bytes region(REGION);
    auto pen = [&](size_t offset) { return Pen{region.data() + offset}; };

    Pen header = pen(0);
    header.number(1, 1);
    header.number(REGION - 5, 4);
    header.number(store.setting, 1);
    header.number(store.entries.size(), 2);
    header.number(store.lines.size(), 2);
    header.number(store.mode, 1);
    header.number(store.rows.size(), 1);
    header.number(store.packed_lock, 1);

    for (size_t n = 0; n < store.entries.size(); n++) {
        const Entry &entry = store.entries[n];
        if (entry.name.size() > LONGEST_NAME)
            std::abort();
        region[NAMES.slot(n)] = uint8_t(entry.name.size());
        std::copy(entry.name.begin(), entry.name.end(), region.begin() + name_offset(n));
        pen(LOOSE.slot(n)).value(entry.loose);
        pen(PACKED.slot(n)).number(entry.packed, 8);
        pen(LOCKS.slot(n)).number(entry.lock, 1);
    }
    for (size_t i = 0; i < store.rows.size(); i++)
        write_row(pen(ROWS.slot(i)), store.rows[i]);
    for (size_t i = 0; i < store.lines.size(); i++)
        write_line(pen(LINES.slot(i)), store.lines[i]);
    return region;
}

std::vector<size_t> bits_in_use(const Store &store)
{
    const size_t names = store.entries.size();
    const std::pair<Table, size_t> tables[] = {
        {{0, NAMES.at, 1}, 1}, {NAMES, names}, {LOOSE, names}, {PACKED, names}, {LOCKS, names}, {ROWS, store.rows.size()},
        {LINES, store.lines.size()},
    };
    std::vector<size_t> bits;
    for (const auto &[table, used] : tables)
        for (size_t bit = 8 * table.slot(0); bit < 8 * table.slot(used); bit++)
            bits.push_back(bit);
    return bits;
}

// ---- reading

static Row read_row(Eye eye)
{
    Row row;
    eye.into(row.name);
    eye.into(row.kind);
    eye.into(row.log_only);
    eye.into(row.force);
    eye.into(row.message);
    eye.into(row.expected);
    eye.into(row.expected_target);
    eye.into(row.new_target);
    eye.into(row.has_parent);
    eye.into(row.parent);
    eye.into(row.leaf_previous);
    return row;
}

static Line read_line(Eye eye)
{
    Line line;
    eye.into(line.name);
    eye.into(line.before);
    eye.into(line.after);
    eye.into(line.committer);
    eye.into(line.message);
    return line;
}

static bool is_zero(const uint8_t *from, const uint8_t *end)
{
    return from == end || (*from == 0 && std::memcmp(from, from + 1, end - from - 1) == 0);
}

std::optional<Store> decode(const uint8_t *region, size_t size)
{
    if (size != REGION)
        return {};
    Eye header{region};
    uint64_t version = header.number(1), rest = header.number(4);
    Store store;
    header.into(store.setting);
    size_t names = header.number(2), lines = header.number(2);
    header.into(store.mode);
    size_t rows = header.number(1);
    header.into(store.packed_lock);
    if (version != 1 || rest != REGION - 5 || names > MOST_NAMES || lines > MOST_LINES || rows > MOST_ROWS)
        return {};

    // The slots past the counts are zero.
    auto rest_is_zero = [&](const Table &table, size_t used) {
        return is_zero(region + table.slot(used), region + table.end());
    };
    if (!rest_is_zero(NAMES, names) || !rest_is_zero(LOOSE, names) || !rest_is_zero(PACKED, names) ||
        !rest_is_zero(LOCKS, names) || !rest_is_zero(ROWS, rows) || !rest_is_zero(LINES, lines))
        return {};

    for (size_t n = 0; n < names; n++) {
        const uint8_t *slot = region + NAMES.slot(n), *text = slot + 1;
        if (*slot > LONGEST_NAME || !is_zero(text + *slot, text + LONGEST_NAME))
            return {};
        Entry entry;
        entry.name.assign(text, text + *slot);
        Eye{region + LOOSE.slot(n)}.into(entry.loose);
        Eye{region + PACKED.slot(n)}.into(entry.packed);
        Eye{region + LOCKS.slot(n)}.into(entry.lock);
        store.entries.push_back(entry);
    }
    for (size_t i = 0; i < rows; i++)
        store.rows.push_back(read_row(Eye{region + ROWS.slot(i)}));
    for (size_t i = 0; i < lines; i++)
        store.lines.push_back(read_line(Eye{region + LINES.slot(i)}));
    if (!is_good(store))
        return {};
    return store;
}
