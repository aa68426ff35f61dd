#include "demand3.h"

#include "dehlbazin.h"
#include "entries.h"

#include <algorithm>

static const Value ABSENT = {};

// ---- what the archive reads

// The value alone, its kind and its number: where it was found is no part of what demand 3 speaks of.
static Value read_by_archive(const Lent &region, size_t name)
{
    uint8_t answer[DEHLBAZIN_ANSWER_SIZE];
    uint32_t number = run(call::read_name(name), region.data(), region.size(), answer, sizeof answer);
    if (number != DEHLBAZIN_DONE)
        return {BROKEN, number}; // no name reads so
    const uint64_t kind = dehlbazin_place(answer, DEHLBAZIN_READ_NAME_KIND);
    return {uint8_t(std::min(kind, uint64_t(255))), dehlbazin_place(answer, DEHLBAZIN_READ_NAME_NUMBER)}; // 255 is no kind
}

static std::vector<Value> read_all(const Lent &region, size_t names)
{
    std::vector<Value> reads;
    for (size_t n = 0; n < names; n++)
        reads.push_back(read_by_archive(region, n));
    return reads;
}

static bool is_logless(const Lent &region, size_t name)
{
    uint8_t answer[DEHLBAZIN_ANSWER_SIZE];
    return run(call::read_line(name, 0), region.data(), region.size(), answer, sizeof answer) == DEHLBAZIN_NOTHING_THERE;
}

static std::string in_words(const Value &value)
{
    static const char *const kinds[] = {"nothing", "object ", "link ", "refusal "};
    std::string text = value.kind <= BROKEN ? kinds[value.kind] : "no kind of value ";
    return value == ABSENT ? text : text + std::to_string(value.number);
}

// ---- the sentences

Demand3::Demand3(const Store &prepared, const Lent &region) : mode(prepared.mode), rows(prepared.rows)
{
    for (const Value &old : read_all(region, prepared.entries.size()))
        names.push_back({nullptr, old, old});
    for (const Row &row : rows)
        names[row.name].row = &row;
}

// Of a log-only row its old one; of a delete nothing; else the new target.
Value Demand3::new_value(const Name &name) const
{
    if (name.row->log_only)
        return name.old;
    return name.row->kind == DELETE ? ABSENT : name.row->new_target;
}

// A name outside the rows reads as before. A name in the rows reads its old or its new value, never a third, and once it reads the
// new one it never goes back.
void Demand3::look_at_name(size_t n, const Value &reads, const std::string &what, const At &at)
{
    Name &name = names[n];
    std::string who = what + ": name " + std::to_string(n) + " reads " + in_words(reads);
    if (!name.row) {
        check(reads == name.old, who + ", has no row, and read " + in_words(name.old), at);
        return;
    }
    const Value target = new_value(name);
    check(reads == name.old || reads == target, who + ", not " + in_words(name.old) + " or " + in_words(target), at);
    check(name.last != target || reads == target, who + " and has read " + in_words(target) + " at an earlier stop", at);
    name.last = reads;
}

// Some update's name does not read its new value yet.
bool Demand3::is_update_due(const std::vector<Value> &reads) const
{
    for (const Row &row : rows)
        if (row.kind == UPDATE && reads[row.name] != new_value(names[row.name]))
            return true;
    return false;
}

// A deleted name that read something before has no log line once it reads nothing. In modes 1 and 2 no such deletion shows before
// every update does.
void Demand3::look_at_deletions(const Lent &region, const std::vector<Value> &reads, const std::string &what, const At &at) const
{
    for (const Row &row : rows) {
        bool shows = row.kind == DELETE && names[row.name].old != ABSENT && reads[row.name] == ABSENT;
        if (!shows)
            continue;
        std::string who = what + ": name " + std::to_string(row.name) + " is deleted";
        check(is_logless(region, row.name), who + " and has a log line", at);
        check(mode == 3 || !is_update_due(reads), who + " before every update shows", at);
    }
}

void Demand3::look(const Lent &region, bool whole, const std::string &what, const At &at)
{
    const std::vector<Value> reads = read_all(region, names.size());
    for (size_t n = 0; n < names.size(); n++)
        look_at_name(n, reads[n], what, at);
    look_at_deletions(region, reads, what, at);
    if (whole)
        for (const Row &row : rows)
            check(reads[row.name] == new_value(names[row.name]),
                  what + ": after all writes name " + std::to_string(row.name) + " does not read its new value", at);
}
