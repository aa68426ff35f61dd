#include "calls.h"

#include "commit.h"
#include "edits.h"
#include "image.h"
#include "packed_text.h"
#include "prepare.h"

#include <algorithm>

Answer answer(uint32_t number, const std::vector<uint64_t> &places)
{
    Answer given;
    given.number = number;
    std::copy(places.begin(), places.end(), given.places.begin());
    return given;
}

// Bytes in pairs of hexadecimal digits. Of many only the first ones.
static std::string in_digits(std::string_view bytes)
{
    static const size_t MOST = LIST_HEADER + 4 * RECORD;
    static const char digits[] = "0123456789abcdef";
    std::string text;
    for (unsigned char byte : bytes.substr(0, MOST)) {
        text += digits[byte / 16];
        text += digits[byte % 16];
    }
    return bytes.size() <= MOST ? text : text + "..";
}

static std::string beginning_of(const std::string &text, size_t most)
{
    return text.size() <= most ? text : text.substr(0, most) + "..";
}

std::string describe(const Call &call)
{
    static const char *const names[] = {"start", "add_name", "name_bytes", "load_loose", "load_packed", "place_lock", "lift_lock",
                                        "prepare", "commit", "rollback", "read_name", "read_line", "read_row", "write_packed",
                                        "read_packed"};
    std::string text = names[size_t(call.op)];
    if (call.op == Op::prepare)
        return text + " '" + in_digits(call.bytes) + "' in mode " + std::to_string(call.a);
    if (call.op == Op::add_name)
        return text + " '" + beginning_of(call.bytes, 80) + "'";
    if (call.op == Op::read_packed)
        return text + " of " + std::to_string(call.bytes.size()) + " bytes '" + beginning_of(call.bytes, 400) + "'";
    if (call.op == Op::write_packed)
        return text + " into " + std::to_string(call.bytes.size()) + " bytes";
    size_t numbers = 1;
    if (call.op == Op::load_loose || call.op == Op::load_packed)
        numbers = 3;
    else if (call.op == Op::place_lock || call.op == Op::lift_lock || call.op == Op::read_line || call.op == Op::commit)
        numbers = 2;
    else if (call.op == Op::rollback)
        numbers = 0;
    const uint64_t all[] = {call.a, call.b, call.c};
    for (size_t i = 0; i < numbers; i++)
        text += " " + std::to_string(all[i]);
    return text;
}

static Answer start(Store &store, uint64_t setting)
{
    if (setting > 2)
        return answer(2);
    store = Store{};
    store.setting = uint8_t(setting);
    return answer(0);
}

static Answer add_name(Store &store, const std::string &name)
{
    if (!is_name(name))
        return answer(18);
    for (size_t n = 0; n < store.entries.size(); n++)
        if (store.entries[n].name == name)
            return answer(0, {n});
    if (store.entries.size() == MOST_NAMES)
        return answer(19);
    store.entries.push_back({name, {}, 0, FREE});
    return answer(0, {store.entries.size() - 1});
}

static Answer load_loose(Store &store, uint64_t name, uint64_t kind, uint64_t number)
{
    if (kind == LINK && number >= store.entries.size())
        return answer(3, {number});
    bool fits = kind == LINK || (kind == OBJECT ? number != 0 : (kind == NONE || kind == BROKEN) && number == 0);
    bool apart = kind == NONE || !is_near_loose(store, store.entries[name].name);
    if (!fits || !apart)
        return answer(21);
    store.entries[name].loose = {uint8_t(kind), number};
    return answer(0);
}

static Answer load_packed(Store &store, uint64_t name, uint64_t kind, uint64_t number)
{
    Entry &entry = store.entries[name];
    bool fits = kind == OBJECT ? number != 0 && is_packable(entry.name) : kind == NONE && number == 0;
    if (!fits)
        return answer(21);
    entry.packed = number;
    return answer(0);
}

static Answer turn(uint8_t &lock, uint8_t from, uint8_t to)
{
    if (lock != from)
        return answer(20);
    lock = to;
    return answer(0);
}

// The kind comes first. Beside the packed table no number is looked at.
static Answer turn_lock(Store &store, uint64_t kind, uint64_t number, uint8_t from, uint8_t to)
{
    if (kind == LOCKABLE_PACKED_TABLE)
        return turn(store.packed_lock, from, to);
    if (kind != LOCKABLE_NAME)
        return answer(2);
    if (number >= store.entries.size())
        return answer(3, {number});
    return turn(store.entries[number].lock, from, to);
}

static Answer rollback(Store &store)
{
    size_t rows = store.rows.size();
    forget_transaction(store);
    return answer(0, {rows});
}

static Answer read_name(const Entry &entry)
{
    Value value = reading(entry);
    return answer(0, {value.kind, value.number, reading_place(entry)});
}

static Answer read_line(const Store &store, uint64_t name, uint64_t place)
{
    for (const Line &line : store.lines)
        if (line.name == name && place-- == 0)
            return answer(0, {line.before, line.after, line.committer, line.message});
    return answer(22);
}

// Where R3 found the value is not kept. It is found there still: while a transaction is prepared, no call changes a value, or what
// opens the packed table.
static Answer read_row(const Store &store, uint64_t place)
{
    if (place >= store.rows.size())
        return answer(22);
    const Row &row = store.rows[place];
    return answer(0, {row.name, row.kind, row.log_only, row.force, row.message, row.expected, row.expected_target.kind,
                      row.expected_target.number, row.new_target.kind, row.new_target.number, row.has_parent, row.parent,
                      row.leaf_previous, reading_place(store.entries[row.name], opens_packed(store))});
}

static Answer write_packed(const Store &store, std::string buffer) { return packed_text::write_packed(store, buffer); }

// The first number is a name's.
static bool takes_name(Op op)
{
    switch (op) {
    case Op::name_bytes:
    case Op::load_loose:
    case Op::load_packed:
    case Op::read_name:
    case Op::read_line:
        return true;
    default:
        return false;
    }
}

Answer answer_of(Store &store, const Call &call)
{
    if (store.mode != 0 && (call.op == Op::load_loose || call.op == Op::load_packed))
        return answer(15);
    if (takes_name(call.op) && call.a >= store.entries.size())
        return answer(3, {call.a});
    switch (call.op) {
    case Op::start:
        return start(store, call.a);
    case Op::add_name:
        return add_name(store, call.bytes);
    case Op::name_bytes:
        return answer(0, {name_offset(call.a), store.entries[call.a].name.size()});
    case Op::load_loose:
        return load_loose(store, call.a, call.b, call.c);
    case Op::load_packed:
        return load_packed(store, call.a, call.b, call.c);
    case Op::place_lock:
        return turn_lock(store, call.a, call.b, FREE, FOREIGN);
    case Op::lift_lock:
        return turn_lock(store, call.a, call.b, FOREIGN, FREE);
    case Op::prepare:
        return prepare(store, call.bytes, call.a);
    case Op::commit:
        return commit(store, call.a, call.b);
    case Op::rollback:
        return rollback(store);
    case Op::read_name:
        return read_name(store.entries[call.a]);
    case Op::read_line:
        return read_line(store, call.a, call.b);
    case Op::read_row:
        return read_row(store, call.a);
    case Op::write_packed:
        return write_packed(store, call.bytes);
    case Op::read_packed:
        return packed_text::read_packed(store, call.bytes);
    }
    return {};
}

std::string left_of(const Store &store, const Call &call)
{
    std::string bytes = call.bytes;
    if (call.op == Op::write_packed)
        packed_text::write_packed(store, bytes);
    return bytes;
}
