#include "preparing.h"

#include "receiver.h"

// What the row found, as it is stated, says whether a packed value was seen: so the place follows from it and the loose value
// alone, and not from our own store's test of what opens the packed table.
static uint8_t place_of(const Entry &entry, const Row &row)
{
    if (entry.loose.kind == OBJECT || entry.loose.kind == LINK)
        return PLACE_LOOSE;
    if (existing(row) != Value{})
        return entry.loose.kind == BROKEN ? PLACE_PACKED_BEHIND_BROKEN : PLACE_PACKED;
    return entry.loose.kind == BROKEN ? PLACE_ABSENT_BEHIND_BROKEN : PLACE_ABSENT;
}

static std::vector<uint64_t> places_of(const Store &store, const Row &row)
{
    return {row.name,
            row.kind,
            row.log_only,
            row.force,
            row.message,
            row.expected,
            row.expected_target.kind,
            row.expected_target.number,
            row.new_target.kind,
            row.new_target.number,
            row.has_parent,
            row.parent,
            row.leaf_previous,
            place_of(store.entries[row.name], row)};
}

// A world compares every byte of the region with our own store after each call, so here our own store is all that is looked at.
static void is_now(const World &world, const Store &stated, const std::string &what, const At &at)
{
    check(encode(world.store()) == encode(stated), what, at);
    check(is_good(world.store()), "our own store breaks a rule", at);
}

// A list of more than 32 edits has no room in a receiver.
static void closes_alike(const Store &store, const std::string &list, uint8_t mode, const World &prepared, const At &at)
{
    if (list.size() > receiver::ROOM)
        return;
    World world(store);
    Bytes receiver = receiver::holding(list);
    world.closes(receiver, mode, at);
    check(world.number() == prepared.number(), "a receiver is closed with another number than the list is prepared with", at);
    for (size_t i = 0; i < 16; i++)
        check(world.place(i) == prepared.place(i), "a receiver is closed with another answer", at);
    check(prepared.region().holds(world.region().data()), "a receiver is closed with another region", at);
}

void prepares(const Store &store, const std::vector<Edit> &edits, uint8_t mode, const std::vector<Row> &rows, At at)
{
    World world(store);
    world.gives(call::prepare(write_list(edits), mode), 0, {rows.size()}, at);
    closes_alike(store, write_list(edits), mode, world, at);
    Store stated = store;
    stated.mode = mode;
    stated.rows = rows;
    take_locks(stated);
    is_now(world, stated, "our own store has not the rows that the check states, or not their locks", at);
    for (size_t place = 0; place < rows.size(); place++)
        world.gives(call::read_row(place), 0, places_of(store, rows[place]), at);
    world.gives(call::read_row(rows.size()), 22, {}, at);
    world.gives(call::rollback(), 0, {rows.size()}, at);
    is_now(world, store, "rollback does not leave the store from before", at);
}

void refuses(const Store &store, const std::vector<Edit> &edits, uint8_t mode, uint32_t number,
             const std::vector<uint64_t> &places, At at)
{
    World world(store);
    world.gives(call::prepare(write_list(edits), mode), number, places, at);
    closes_alike(store, write_list(edits), mode, world, at);
}

uint32_t prepare_and_roll_back(World &world, const Call &prepare, At at)
{
    const Store before = world.store();
    uint32_t number = world.agrees(prepare, at).number;
    if (number == 0) {
        check(is_good(world.store()), describe(prepare) + ": our own store breaks a rule", at);
        for (size_t place = 0; place <= world.store().rows.size(); place++)
            world.agrees(call::read_row(place), at);
        world.agrees(call::rollback(), at);
    }
    is_now(world, before, describe(prepare) + ": our own store is not as before", at);
    return number;
}
