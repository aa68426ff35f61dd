// Names, lines and rows by range-for, and walks that end early.
#include "parts.h"
#include "site.h"

static void test_names()
{
    Site site;
    for (const Name &name : site.store.names())
        check(false, "a name in an empty store: " + std::string(name.bytes));
    const std::vector<std::string> all = {"HEAD", "refs/heads/aisle", "refs/tags/spring"};
    Site named(all);
    std::vector<std::string> seen;
    for (const Name &name : named.store.names()) {
        check(name.number == NameNumber(seen.size()), "in order");
        seen.emplace_back(name.bytes);
    }
    check(seen == all, "all of them");
    auto walk = named.store.names();
    size_t added = 0;
    for (const Name &name : walk)
        if (name.number == head && ++added == 1)
            done(named.store.add_name("refs/new"));
    check(!walk.refusal() && added == 1, "a name may be added on the way");
    size_t count = 0;
    for (const Name &name : walk)
        count += name.bytes.size() > 0;
    check(count == 4, "and is seen by the next walk");
}

static void test_lines()
{
    Marked site;
    for (uint64_t number : {7, 9})
        done(site.store.prepare(list_of({Update(head, object(number)).deref()})).value().commit(Committer(number)));
    std::vector<uint64_t> after;
    auto walk = site.store.lines(aisle);
    for (const Line &line : walk) {
        check(line.previous == (after.empty() ? std::nullopt : std::optional(ObjectNumber(7))), "previous");
        after.push_back(line.next.number());
    }
    check(after == std::vector<uint64_t>{7, 9} && !walk.refusal(), "two lines");
    auto none = site.store.lines(NameNumber(5));
    check(none.begin() == none.end(), "no line of no name");
    check(none.refusal() && none.refusal()->reason() == Reason::not_registered && none.refusal()->name() == NameNumber(5),
          "and why");
}

static void test_rows()
{
    Marked site;
    auto nothing = site.store.rows();
    check(nothing.begin() == nothing.end() && !nothing.refusal(), "no row where nothing is prepared");
    const auto transaction = site.store.prepare(list_of({Update(head, object(7)).deref()}));
    std::vector<NameNumber> names;
    for (const Row &row : site.store.rows())
        names.push_back(row.name);
    check(names == std::vector<NameNumber>{head, aisle}, "two rows");
    auto walk = site.store.rows();
    auto at = walk.begin();
    check(at != walk.end() && at->name == head && (*at).log_only, "the first");
    at++;
    check(at->name == aisle, "the second");
}

// A region that is spoilt under a walk ends it, and the walk says so.
static void test_spoilt()
{
    Site site({"HEAD", "refs/heads/aisle"});
    auto walk = site.store.names();
    size_t seen = 0;
    for (const Name &name : walk) {
        seen += name.bytes.size() > 0;
        site.region[0] = 0;
    }
    check(seen == 1 && walk.refusal() && walk.refusal()->reason() == Reason::bad_region, "it ends with 1");
}

void test_walks()
{
    test_names();
    test_lines();
    test_rows();
    test_spoilt();
}
