// Regions made by hand with names above and beneath others: a loose value beneath another, and prepared rows that 25 would refuse,
// make a region that no call takes. What is close to these is good, and is committed at every stop.
#include "committing.h"
#include "entries.h"
#include "tests.h"

// The names of these regions: the second lies beneath the first, the third beneath both.
enum : uint16_t { A, A_B, A_B_C, AB, TAG };

static const Value VALUES[] = {object(5), link(TAG), {BROKEN, 0}};
static const uint8_t MODES[] = {1, 2, 3};

static Store site(const std::vector<std::pair<uint16_t, Value>> &loose)
{
    Store s;
    s.setting = 1;
    for (const char *name : {"refs/heads/a", "refs/heads/a/b", "refs/heads/a/b/c", "refs/heads/ab", "refs/tags/t"})
        s.entries.push_back({name, {}, 0, FREE});
    for (const auto &[name, value] : loose)
        s.entries[name].loose = value;
    return s;
}

// The same with rows, which take the locks that they keep.
static Store with_rows(Store store, uint8_t mode, const std::vector<Row> &rows)
{
    store.mode = mode;
    store.rows = rows;
    take_locks(store);
    return store;
}

// One of every call that tests the region, each of which would be done or stopped on some good one.
static std::vector<Call> calls()
{
    using namespace call;
    return {
        add_name("refs/heads/new"), name_bytes(0), load_loose(A, NONE, 0), load_packed(A, NONE, 0),
        place_lock_on_name(TAG), lift_lock_of_name(TAG), place_lock_on_packed(), lift_lock_of_packed(),
        prepare(write_list({deleting(TAG)}), 1), commit(1, ~uint64_t(0)), commit(1, 0), rollback(),
        read_name(A), read_line(A, 0), read_row(0),
    };
}

static void good(const Store &store, const std::string &what, AT_CALLER)
{
    taken_for(true, encode(store), what, at);
    if (store.mode != 0)
        stops_everywhere(store, Led::by_nothing, what, at);
}

// Every call gives 1 and writes nothing but a record of zeros.
static void bad(const Store &store, const std::string &what, AT_CALLER)
{
    const Bytes region = encode(store);
    taken_for(false, region, what, at);
    Lent lent(region), record(ANSWER);
    for (const Call &call : calls()) {
        record.fill(0xEE);
        uint32_t number = run(call, lent.data(), lent.size(), record.data(), record.size());
        check(number == 1, what + ", " + describe(call) + ": number " + std::to_string(number), at);
        check(record.is_filled(0) && record.is_alone(), what + ", " + describe(call) + ": the record", at);
        check(lent.holds(region) && lent.is_alone(), what + ", " + describe(call) + ": the region", at);
        lent.set(region);
    }
}

// ---- values

static void test_values_beneath()
{
    for (const Value &first : VALUES)
        for (const Value &second : VALUES) {
            bad(site({{A, first}, {A_B, second}}), "a value beneath another");
            bad(site({{A, first}, {A_B_C, second}}), "a value two names beneath another");
            bad(with_rows(site({{A_B, first}, {A_B_C, second}}), 1, {}), "a value beneath another, and no rows");
            good(site({{A_B, first}, {AB, second}}), "values side by side");
            good(with_rows(site({{A, first}, {AB, second}}), 2, {}), "a name that begins another, and no rows");
        }
    // Packed values play no part.
    for (uint16_t name : {A, A_B, A_B_C}) {
        Store store = site({{name, object(5)}});
        for (uint16_t packed : {A, A_B, A_B_C})
            store.entries[packed].packed = 9;
        good(store, "packed values above and beneath");
    }
}

// Values of names that come between the two in the order of bytes change nothing.
static void test_values_between()
{
    Store store;
    for (const char *name : {"refs/heads/a", "refs/heads/a-b", "refs/heads/a.b", "refs/heads/a/b", "refs/heads/a0"})
        store.entries.push_back({name, object(5), 0, FREE});
    bad(store, "a value beneath another, and others between");
    for (size_t gone : {0, 3}) {
        Store apart = store;
        apart.entries[gone].loose = {};
        good(apart, "values that only begin alike");
    }
}

// ---- rows beneath a value

static void test_rows_beneath()
{
    const Row rows[] = {
        update(A_B, object(7)),
        update(A_B, link(TAG)),
        found(update(A_B, object(7)), object(7)), // which changes nothing
        log_only(update(A_B, object(7))),
        deletion(A_B),
        log_only(deletion(A_B)),
    };
    for (const Row &row : rows)
        for (uint8_t mode : MODES) {
            for (const Value &value : VALUES)
                bad(with_rows(site({{A, value}}), mode, {row}), "a row beneath a value");
            bad(with_rows(site({{A, object(5)}}), mode, {deletion(A), row}), "a row beneath a value that is deleted");
            Store store = site({{AB, object(5)}});
            store.entries[A].packed = 5;
            good(with_rows(store, mode, {row}), "a row beneath a packed value");
        }
    for (uint8_t mode : MODES) {
        Row low = deletion(A_B_C);
        bad(with_rows(site({{A, object(5)}}), mode, {low}), "a row two names beneath a value");
        bad(with_rows(site({{A_B, {BROKEN, 0}}}), mode, {update(TAG, link(A)), child_of(0, low)}), "a child beneath a value");
    }
}

// ---- rows above a value

// A row writes by what it found: expected 3 says what that was, and anything else that it was nothing.
static void test_rows_above()
{
    const Row seven = update(A, object(7));
    const Row writing[] = {
        seven,
        expecting(seven, MUST_EXIST),
        expecting(seven, MUST_NOT_EXIST),
        expecting(seven, EXISTING_MUST_MATCH, object(7)),
        found(seven, object(8)),
        found(seven, link(0)),
        child_of(0, seven),
    };
    const Row quiet[] = {found(seven, object(7)), log_only(seven), log_only(update(A, link(TAG))), deletion(A),
                         found(deletion(A), object(7)), log_only(deletion(A))};
    for (const Value &value : VALUES)
        for (uint16_t beneath : {A_B, A_B_C}) {
            const Store store = site({{beneath, value}});
            auto rows_of = [](const Row &row) { return std::vector<Row>{log_only(deletion(TAG)), row}; };
            for (const Row &row : writing) {
                for (uint8_t mode : {1, 2})
                    bad(with_rows(store, mode, rows_of(row)), "a row that writes above a value");
                good(with_rows(store, 3, rows_of(row)), "a direct row above a value");
            }
            for (uint8_t mode : MODES) {
                for (const Row &row : {update(A, link(TAG)), found(update(A, link(TAG)), link(TAG))})
                    bad(with_rows(store, mode, rows_of(row)), "a row that writes a link above a value");
                for (const Row &row : quiet)
                    good(with_rows(store, mode, rows_of(row)), "a row above a value that writes none");
            }
        }
}

// No name under refs/bisect/ is packable, so none of its rows is direct.
static void test_unpackable()
{
    Store store = site({{A_B, object(5)}});
    store.entries[A].name = "refs/bisect/a";
    store.entries[A_B].name = "refs/bisect/a/b";
    for (uint8_t mode : MODES) {
        bad(with_rows(store, mode, {update(A, object(7))}), "a row that writes above a value, of a name that is not packable");
        good(with_rows(store, mode, {deletion(A)}), "a delete above a value, of a name that is not packable");
    }
}

// ---- two rows

static void test_two_rows()
{
    const Store store = site({});
    auto both = [&](uint8_t mode, const Row &row, const Row &other) {
        return std::vector<Store>{with_rows(store, mode, {row, other}), with_rows(store, mode, {other, row}),
                                  with_rows(store, mode, {row, deletion(TAG), update(AB, link(TAG)), other})};
    };
    for (uint16_t beneath : {A_B, A_B_C})
        for (uint8_t mode : MODES) {
            const Row linked = update(A, link(TAG)), below = update(beneath, link(TAG)), seven = update(A, object(7));
            for (const Store &made : both(mode, linked, below))
                bad(made, "two rows that write");
            for (const Store &made : both(mode, seven, below)) {
                if (mode == 3)
                    good(made, "a direct row above one that writes");
                else
                    bad(made, "two rows that write");
            }
            for (const Row &row : {log_only(linked), deletion(A), found(seven, object(7))})
                for (const Store &made : both(mode, row, below))
                    good(made, "a row that writes, beneath one that does not");
            for (const Row &row : {log_only(below), deletion(beneath)})
                for (const Store &made : both(mode, linked, row))
                    good(made, "a row that writes, above one that does not");
        }
}

void test_beneath_regions()
{
    test_values_beneath();
    test_values_between();
    test_rows_beneath();
    test_rows_above();
    test_unpackable();
    test_two_rows();
}
