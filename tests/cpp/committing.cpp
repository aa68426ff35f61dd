#include "committing.h"

#include "demand3.h"

static const uint64_t LARGEST = ~uint64_t(0);

// What a committer's stops answered so far, by the archive's own numbers.
class Counts {
public:
    // 17 says that all that was allowed is made. Any other ending has made no more than that, 16 less, and comes again in the same
    // way whatever more is allowed.
    void look(const World &stopped, uint64_t committer, uint64_t allowance, const std::string &what, const At &at)
    {
        const uint64_t made = stopped.place(0);
        if (stopped.number() == 17) {
            check(!ended && made == allowance, what + ": 17 with " + std::to_string(made) + " writes", at);
            return;
        }
        bool done = stopped.number() == 0 && made <= allowance;
        bool lacks_committer = stopped.number() == 16 && committer == 0 && made < allowance;
        check(done || lacks_committer, what + ": it ends with " + std::to_string(made) + " writes", at);
        const std::pair<uint32_t, uint64_t> ending(stopped.number(), made);
        check(!ended || *ended == ending, what + ": it ends in another way than with less allowed", at);
        ended = ending;
    }

private:
    std::optional<std::pair<uint32_t, uint64_t>> ended;
};

static std::vector<uint64_t> allowances(uint64_t writes)
{
    std::vector<uint64_t> all;
    for (uint64_t allowance = 0; allowance <= writes + 1; allowance++)
        all.push_back(allowance);
    all.push_back(LARGEST);
    return all;
}

// What the rows' names read there, and where it is found, is what our own store says.
static void reads_names(World &stopped, const std::vector<Row> &rows, const At &at)
{
    for (const Row &row : rows)
        stopped.agrees(call::read_name(row.name), at);
}

static void stops_of(uint64_t committer, const Store &prepared, Led led, const std::string &what, const At &at)
{
    std::optional<Demand3> demand3;
    if (led == Led::by_calls)
        demand3.emplace(prepared, Lent(encode(prepared)));
    Counts counts;
    for (uint64_t allowance : allowances(writes_of(prepared).size())) {
        const Call commit = call::commit(committer, allowance);
        const std::string where = what + ", " + describe(commit);
        World world(prepared);
        world.agrees(commit, at);
        counts.look(world, committer, allowance, where, at);
        if (demand3)
            demand3->look(world.region(), world.number() == 0, where, at);
        check(is_good(world.store()), where + ": our own store breaks a rule", at);
        if (committer == 1)
            reads_names(world, prepared.rows, at);
    }
}

void stops_everywhere(const Store &prepared, Led led, const std::string &what, At at)
{
    for (uint64_t committer : {1, 0, 65535})
        stops_of(committer, prepared, led, what, at);
    World world(prepared);
    for (size_t place = 0; place < prepared.rows.size(); place++)
        world.agrees(call::read_row(place), at);
    for (uint64_t committer : {uint64_t(65536), LARGEST})
        for (uint64_t allowance : {uint64_t(0), LARGEST})
            world.gives(call::commit(committer, allowance), 2, {}, at);
}

static void has_writes(const Store &prepared, const std::vector<Write> &writes, const At &at)
{
    std::string found;
    for (const Write &write : writes_of(prepared))
        found += (found.empty() ? "" : ", ") + describe(write);
    check(writes_of(prepared) == writes, "our own store has not the writes that the check states, but: " + found, at);
}

Store commits(const Store &store, const std::vector<Edit> &edits, uint8_t mode, const std::vector<Write> &writes,
              uint16_t committer, At at)
{
    World before(store);
    check(before.agrees(call::prepare(write_list(edits), mode), at).number == 0, "the list is not prepared", at);
    const Store prepared = before.store();
    has_writes(prepared, writes, at);
    Store stated = store;
    for (size_t allowance = 0; allowance <= writes.size(); allowance++) {
        if (allowance > 0)
            make(stated, writes[allowance - 1], committer);
        World world(prepared);
        world.gives(call::commit(committer, allowance), allowance == writes.size() ? 0 : 17, {allowance}, at);
        check(encode(world.store()) == encode(stated), "our own store is not what the stated writes leave", at);
    }
    stops_everywhere(prepared, Led::by_calls, "a list in mode " + std::to_string(mode), at);
    return stated;
}
