// The marked examples P1 to P11, through dehlbazin.hpp: rows, writes, lines and what is read.
#include "parts.h"
#include "site.h"

#include <functional>

using Lines = std::vector<std::vector<uint64_t>>;

static const Committer planner{1};

static Update through_head(uint64_t number) { return Update(head, object(number)).deref().message(Message(3)); }

static void writes(Store &store, std::initializer_list<Edit> edits, uint64_t rows, uint64_t count, AT_CALLER)
{
    Result<Transaction> transaction = store.prepare(list_of(edits));
    done(transaction, at);
    if (!transaction)
        return;
    check(transaction.get()->row_count() == rows, "rows", at);
    const Result<Outcome> outcome = transaction.get()->commit(planner);
    done(outcome, at);
    check(outcome && outcome.get()->all_written() && outcome.get()->writes == count, "writes", at);
}

// What can be read after each number of writes that an edit is allowed; every time from the same store.
static std::vector<Found> reads_at_stops(const Region &region, const Edit &edit, NameNumber name, uint64_t count)
{
    std::vector<Found> values;
    for (uint64_t allowance = 0; allowance <= count; allowance++) {
        Region copy = region;
        Store store = Store::open(copy).value();
        const Outcome outcome = store.prepare(list_of({edit})).value().commit(planner, Allowance(allowance)).value();
        check(outcome.writes == allowance && outcome.all_written() == (allowance == count), "writes made");
        values.push_back(store.read_name(name).value());
    }
    return values;
}

// P1: an update through HEAD's link. P2: then another object. P3: and the same one again.
static void test_updates()
{
    Marked site;
    {
        const auto transaction = site.store.prepare(list_of({through_head(7)}));
        const Row first = site.store.read_row(0).value(), second = site.store.read_row(1).value();
        check(first.name == head && first.log_only && !first.parent, "P1: row 0 is log-only");
        check(second.name == aisle && !second.log_only && second.parent == uint64_t(0), "P1: row 1 is its child");
        check(first.found == Place::loose && second.found == Place::absent, "P1: row 0 found its link, row 1 nothing");
    }
    const auto stops = reads_at_stops(site.region, through_head(7), aisle, 3);
    const Found absent{std::nullopt, Place::absent}, seven{object(7), Place::loose};
    check(stops == std::vector<Found>{absent, absent, absent, seven}, "P1: the value comes last");
    writes(site.store, {through_head(7)}, 2, 3);
    check(site.lines(head) == Lines{{0, 7, 1, 3}} && site.lines(aisle) == Lines{{0, 7, 1, 3}}, "P1: lines");
    site.reads(aisle, object(7), Place::loose);
    site.reads(head, link(aisle), Place::loose);
    writes(site.store, {through_head(9)}, 2, 3);
    const Lines both = {{0, 7, 1, 3}, {7, 9, 1, 3}};
    check(site.lines(head) == both && site.lines(aisle) == both, "P2: both lines 7 to 9");
    const Region before = site.region;
    writes(site.store, {through_head(9)}, 2, 0);
    check(site.region == before, "P3: no write");
}

// P4: a delete through HEAD's link that expects the object behind it is judged by the link first.
static void test_delete()
{
    Marked site;
    done(site.store.load_loose(aisle, object(9)));
    const auto result =
        site.store.prepare(list_of({Delete(head).deref().expecting(Expected::must_exist_and_match(object(9)))}));
    refused(result, Reason::reference_out_of_date, {0, 1, 9, 2, 1});
    const Refusal *refusal = result.refusal();
    check(refusal && refusal->name() == head && refusal->actual() == link(aisle) && refusal->expected() == object(9), "P4");
}

// A store whose name 0 leads through so many links to an object.
static void chain(uint64_t hops, const std::function<void(Site &)> &look)
{
    std::vector<std::string> names = {"HEAD"};
    while (names.size() <= hops)
        names.push_back("refs/heads/" + std::to_string(names.size()));
    Site site(names);
    for (uint64_t n = 0; n < hops; n++)
        done(site.store.load_loose(NameNumber(n), link(NameNumber(n + 1))));
    done(site.store.load_loose(NameNumber(hops), object(5)));
    look(site);
}

// P5: four hops. P6: five. P7: a link to itself.
static void test_hops()
{
    chain(4, [](Site &site) {
        writes(site.store, {through_head(7)}, 5, 6);
        for (uint64_t n = 0; n < 5; n++)
            check(site.lines(NameNumber(n)) == Lines{{5, 7, 1, 3}}, "P5: a line of each");
        site.reads(NameNumber(4), object(7), Place::loose);
    });
    chain(5, [](Site &site) { refused(site.store.prepare(list_of({through_head(7)})), Reason::reference_cycle); });
    Marked site;
    done(site.store.load_loose(head, link(head)));
    refused(site.store.prepare(list_of({through_head(7)})), Reason::reference_cycle);
}

// P8: an update that expects nothing, where what is there is its target already. P9: no edits.
static void test_passes()
{
    Marked site;
    done(site.store.load_loose(aisle, object(7)));
    const Update edit = Update(aisle, object(7)).expecting(Expected::must_not_exist());
    writes(site.store, {edit}, 1, 0);
    done(site.store.load_loose(aisle, object(8)));
    refused(site.store.prepare(list_of({edit})), Reason::must_not_exist, {1, 1, 8, 1, 7});
    writes(site.store, {}, 0, 0);
}

// P10: a name with both values is deleted. It never reads the packed one.
static void test_both_values()
{
    Marked site;
    done(site.store.load_packed(aisle, ObjectNumber(3)));
    done(site.store.load_loose(aisle, object(5)));
    const auto stops = reads_at_stops(site.region, Delete(aisle), aisle, 2);
    const Found absent{std::nullopt, Place::absent}, five{object(5), Place::loose};
    check(stops == std::vector<Found>{five, five, absent}, "P10: never 3");
}

// P11: a log-only update alone, of a name that has a packed value only.
static void test_packed_only()
{
    Marked site;
    done(site.store.load_packed(aisle, ObjectNumber(3)));
    const auto result = site.store.prepare(list_of({Update(aisle, object(7)).log_only().expecting(Expected::must_exist())}));
    refused(result, Reason::must_exist, {1, 1, 0});
    check(result.refusal() && result.refusal()->name() == aisle && !result.refusal()->expected(), "P11");
    writes(site.store, {Update(aisle, object(7)).expecting(Expected::must_exist())}, 1, 2);
    check(site.lines(aisle) == Lines{{3, 7, 1, 0}}, "P11: the table is opened for a row that counts");
}

void test_marked()
{
    test_updates();
    test_delete();
    test_hops();
    test_passes();
    test_both_values();
    test_packed_only();
}
