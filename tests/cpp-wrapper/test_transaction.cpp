// A transaction's life: it ends once, and ends no other.
#include "parts.h"
#include "site.h"

static EditList some_list() { return list_of({Update(head, object(7)).deref()}); }
static bool is_prepared(const Site &site) { return site.store.read_row(0).done(); }

static void test_scope()
{
    Marked site;
    const Region before = site.region;
    {
        const Transaction transaction = site.store.prepare(some_list()).value();
        check(transaction.prepared() && transaction.row_count() == 2 && is_prepared(site), "prepared");
        check(site.region != before, "the rows stand in the region");
    }
    check(site.region == before, "out of scope it is rolled back");
    {
        const auto result = site.store.prepare(some_list());
        done(result);
    }
    check(site.region == before, "in a result too");
    (void)site.store.prepare(some_list());
    check(site.region == before, "and where it is not kept");
    {
        Transaction transaction = site.store.prepare(some_list()).value();
        check(transaction.commit(Committer(1)).value().all_written() && !transaction.prepared(), "committed");
    }
    site.reads(aisle, object(7), Place::loose);
}

static void test_end()
{
    Marked site;
    Transaction transaction = site.store.prepare(some_list()).value();
    check(transaction.rollback().value() == 2 && !transaction.prepared(), "rolled back");
    check(transaction.rollback().value() == 0, "once");
    refused(transaction.commit(Committer(1)), Reason::wrong_state);
    Transaction other = site.store.prepare(some_list()).value();
    check(transaction.rollback().value() == 0 && is_prepared(site), "one that is over rolls back no other");
    refused(transaction.commit(Committer(1)), Reason::wrong_state);
    check(other.prepared() && is_prepared(site), "nor commits it");
    const Outcome outcome = other.commit(Committer(1), Allowance(0)).value();
    check(outcome.end == Outcome::End::used_up && !other.prepared() && !is_prepared(site), "a stopped one is over");
}

// The store ends what is prepared, or is started anew: then a transaction is over, and leaves the next one alone.
static void test_ended_by_store()
{
    for (int way = 0; way < 3; way++) {
        Marked site;
        auto old = std::make_unique<Transaction>(site.store.prepare(some_list()).value());
        if (way == 0)
            check(site.store.rollback().value() == 2, "rolled back");
        if (way == 1)
            done(site.store.commit(Committer(1)));
        if (way == 2)
            done(site.store.restart(Setting::normal));
        check(!old->prepared(), "over");
        if (way == 2)
            for (const char *name : {"HEAD", "refs/heads/aisle"})
                done(site.store.add_name(name));
        const Transaction next = site.store.prepare(list_of({Update(aisle, object(9))})).value();
        old.reset();
        check(next.prepared() && is_prepared(site), "the next one is still prepared");
    }
}

static void test_moves()
{
    Marked site;
    const Region before = site.region;
    {
        Transaction first = site.store.prepare(some_list()).value();
        Transaction second = std::move(first);
        check(!first.prepared() && second.prepared() && second.row_count() == 2, "it is moved");
        {
            const Transaction third = std::move(second);
            check(third.prepared() && is_prepared(site), "and again");
        }
        check(site.region == before && !second.prepared(), "rolled back where it ended");
        first = site.store.prepare(some_list()).value();
        check(first.prepared() && is_prepared(site), "assigned");
        first = std::move(second);
        check(site.region == before && !first.prepared(), "an assignment ends what was there");
    }
    Transaction transaction = site.store.prepare(some_list()).value();
    Store moved = std::move(site.store);
    check(transaction.prepared() && moved.read_row(0).done(), "a store is moved below its transaction");
    refused(site.store.add_name("refs/x"), Reason::bad_region); // a store that was moved from has no region
    refused(site.store.read_row(0), Reason::bad_region);
    check(transaction.commit(Committer(1)).value().writes == 3, "which is committed there");
    site.store = std::move(moved);
    site.reads(aisle, object(7), Place::loose);
}

// A store that ends before its transaction takes that with it, since the region may end with the store.
static void test_store_ends_first()
{
    Marked site;
    const Region before = site.region;
    auto store = std::make_unique<Store>(Store::open(site.region).value());
    const Transaction transaction = store->prepare(some_list()).value();
    store.reset();
    check(!transaction.prepared() && site.region == before, "rolled back with the store");
}

// What another program left prepared is taken up from the region, and ended there.
static void test_left_over()
{
    Marked site;
    Region copy;
    {
        const Transaction transaction = site.store.prepare(some_list()).value();
        copy = site.region;
    }
    Store store = Store::open(copy).value();
    refused(store.prepare(some_list()), Reason::wrong_state);
    Region second = copy;
    Store other = Store::open(second).value();
    check(store.commit(Committer(9)).value().writes == 3, "committed");
    check(other.rollback().value() == 2 && second == site.region, "or rolled back");
}

// The region is spoilt while a transaction is prepared: nothing more can be done, and nothing is.
static void test_spoilt()
{
    Marked site;
    Region spoilt;
    {
        Transaction transaction = site.store.prepare(some_list()).value();
        site.region[0] = 9;
        refused(transaction.commit(Committer(1)), Reason::bad_region);
        refused(transaction.rollback(), Reason::bad_region);
        check(transaction.prepared(), "it is not over");
        spoilt = site.region;
    }
    check(site.region == spoilt, "no byte is changed");
}

void test_transaction()
{
    static_assert(!std::is_copy_constructible_v<Transaction> && std::is_nothrow_move_constructible_v<Transaction>);
    static_assert(!std::is_copy_constructible_v<Store> && std::is_nothrow_move_constructible_v<Store>);
    test_scope();
    test_end();
    test_ended_by_store();
    test_moves();
    test_store_ends_first();
    test_left_over();
    test_spoilt();
}
