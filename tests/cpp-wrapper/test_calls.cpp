// Each of the calls on a store, but those of the packed table's text, done and refused, through its typed form.
#include "parts.h"
#include "site.h"

#include <cstring>
#include <type_traits>
#include <utility>

static const NameNumber nobodys{65536};

static void test_start()
{
    Region region;
    region.fill(0xff);
    for (Setting setting : {Setting::never, Setting::normal, Setting::always}) {
        done(Store::start(region, setting));
        check(region[0] == DEHLBAZIN_LAYOUT_VERSION && region[5] == uint8_t(setting), "the setting stands in the region");
    }
    const Region before = region;
    refused(Store::start(region, Setting(3)), Reason::malformed);
    refused(Store::start(region, Setting(uint64_t(1) << 32)), Reason::malformed); // not cut down to 0
    refused(Store::start(region.data(), region.size() - 1, Setting::normal), Reason::bad_region);
    refused(Store::start(region.data(), region.size() + 1, Setting::normal), Reason::bad_region);
    refused(Store::start(nullptr, DEHLBAZIN_REGION_SIZE, Setting::normal), Reason::bad_region);
    check(region == before, "a refused start changes nothing");
    Store store = Store::start(region.data(), region.size(), Setting::normal).value();
    done(store.add_name("HEAD"));
    refused(store.restart(Setting(7)), Reason::malformed);
    done(store.name_bytes(NameNumber(0)));
    done(store.restart(Setting::always));
    refused(store.name_bytes(NameNumber(0)), Reason::not_registered, {0});
}

static void test_open()
{
    Site site({"HEAD"});
    done(Store::open(site.region));
    done(View::open(site.region));
    done(View::open(static_cast<const uint8_t *>(site.region.data()), site.region.size()));
    refused(View::open(site.region.data(), site.region.size() - 1), Reason::bad_region);
    refused(Store::open(site.region.data(), 0), Reason::bad_region);
    refused(Store::open(nullptr, DEHLBAZIN_REGION_SIZE), Reason::bad_region);
    refused(View::open(nullptr, DEHLBAZIN_REGION_SIZE), Reason::bad_region);
    const View view = View::open(site.region).value();
    check(view.name_bytes(NameNumber(0)).value() == "HEAD", "a view reads");
    site.region[0] = 2;
    refused(Store::open(site.region), Reason::bad_region);
    refused(View::open(site.region), Reason::bad_region);
    refused(view.read_name(NameNumber(0)), Reason::bad_region); // good when it was opened, and not any more
    refused(site.store.add_name("refs/x"), Reason::bad_region);
}

static void test_names()
{
    Site site;
    check(site.store.add_name("HEAD").value() == NameNumber(0), "the first name");
    check(site.store.add_name("refs/heads/aisle").value() == NameNumber(1), "the second name");
    check(site.store.add_name("HEAD").value() == NameNumber(0), "a known name");
    const std::string_view bytes = site.store.name_bytes(NameNumber(1)).value();
    check(bytes == "refs/heads/aisle", "a name's bytes");
    const char *region = reinterpret_cast<const char *>(site.region.data());
    check(bytes.data() > region && bytes.data() + bytes.size() < region + site.region.size(), "they stand in the region");
    check(site.store.add_name(bytes).value() == NameNumber(1), "bytes of the region are copied, and found");
    check(site.store.add_name(bytes.substr(0, 10)).value() == NameNumber(2), "or added");
    check(site.store.name_bytes(NameNumber(2)).value() == "refs/heads", "as they were");
    refused(site.store.name_bytes(nobodys), Reason::not_registered, {65536});
    for (std::string_view bad :
         {std::string_view(), std::string_view("head"), std::string_view("refs/a..b"), std::string_view("H\0", 2)})
        refused(site.store.add_name(bad), Reason::bad_name);
    const std::string longest = "refs/heads/" + std::string(53, 'x');
    check(site.store.add_name(longest).value() == NameNumber(3), "64 bytes");
    refused(site.store.add_name(longest + "x"), Reason::bad_name);
    refused(site.store.add_name(longest + "/and/more/than/the/copy/holds"), Reason::bad_name);
    for (size_t n = 4; n < 256; n++)
        done(site.store.add_name("refs/n/" + std::to_string(n)));
    refused(site.store.add_name("refs/n/256"), Reason::names_full);
    done(site.store.add_name("refs/n/255"));
}

static void test_loads()
{
    Site site({"HEAD", "refs/heads/aisle"});
    done(site.store.load_loose(aisle, object(UINT64_MAX)));
    site.reads(aisle, object(UINT64_MAX), Place::loose);
    done(site.store.load_loose(head, link(aisle)));
    site.reads(head, link(aisle), Place::loose);
    done(site.store.load_packed(aisle, ObjectNumber(3)));
    site.reads(aisle, object(UINT64_MAX), Place::loose);
    done(site.store.load_loose(aisle, Loose::broken()));
    site.reads(aisle, object(3), Place::packed_behind_broken);
    done(site.store.load_loose(aisle, Loose::none()));
    site.reads(aisle, object(3), Place::packed);
    done(site.store.load_packed(aisle, std::nullopt));
    site.reads(aisle, std::nullopt, Place::absent);
    refused(site.store.read_name(nobodys), Reason::not_registered, {65536});
    refused(site.store.load_loose(nobodys, Loose::none()), Reason::not_registered, {65536});
    refused(site.store.load_loose(head, link(nobodys)), Reason::not_registered, {65536});
    refused(site.store.load_packed(nobodys, ObjectNumber(1)), Reason::not_registered, {65536});
    refused(site.store.load_loose(aisle, object(0)), Reason::bad_load);
    refused(site.store.load_packed(aisle, ObjectNumber(0)), Reason::bad_load);
    refused(site.store.load_packed(head, ObjectNumber(1)), Reason::bad_load);
    const NameNumber shelf = site.store.add_name("refs/heads/aisle/shelf").value();
    done(site.store.load_loose(aisle, Loose::broken()));
    for (const Loose &value : {Loose(object(5)), Loose(link(head)), Loose::broken()})
        refused(site.store.load_loose(shelf, value), Reason::bad_load); // beneath a loose value
    done(site.store.load_loose(shelf, Loose::none()));
    done(site.store.load_loose(aisle, Loose::none()));
    done(site.store.load_loose(shelf, object(5)));
    refused(site.store.load_loose(aisle, object(5)), Reason::bad_load); // above one
    const auto transaction = site.store.prepare(EditList());
    refused(site.store.load_loose(aisle, object(5)), Reason::wrong_state);
    refused(site.store.load_packed(aisle, ObjectNumber(5)), Reason::wrong_state);
}

// What can be locked is a name or the packed table, and nothing that is taken for one of them.
template <typename What, typename = void> constexpr bool can_be_placed = false;
template <typename What, typename = void> constexpr bool can_be_lifted = false;
template <typename What>
constexpr bool can_be_placed<What, std::void_t<decltype(std::declval<Store &>().place_lock(std::declval<What>()))>> = true;
template <typename What>
constexpr bool can_be_lifted<What, std::void_t<decltype(std::declval<Store &>().lift_lock(std::declval<What>()))>> = true;
template <typename... What> constexpr bool all_locked = ((can_be_placed<What> && can_be_lifted<What>) && ...);
template <typename... What> constexpr bool none_locked = ((!can_be_placed<What> && !can_be_lifted<What>) && ...);
static_assert(all_locked<NameNumber, NameNumber &, const NameNumber &, PackedTable, decltype((packed_table))>);
static_assert(none_locked<int, unsigned, uint64_t, bool, double, std::nullptr_t, const char *, std::string_view>);
static_assert(none_locked<ObjectNumber, Committer, Message, Allowance, SiteNumber, Target, Loose, Found, Name>);
static_assert(none_locked<Place, Mode, Setting, Done, std::optional<NameNumber>, Result<NameNumber>>);

// Only a free lock is placed, only a foreign one lifted. Each call turns the byte of its own lock, and no other.
static void test_locks()
{
    Site site({"HEAD", "refs/heads/aisle"});
    Store &store = site.store;
    const size_t packed_lock = 12, locks = 21005; // docs/LAYOUT.md
    const Region before = site.region;
    Region wanted = before;
    auto turns = [&](const Result<Done> &result, size_t lock, uint8_t state, AT_CALLER) {
        done(result, at);
        wanted[lock] = state;
        check(site.region == wanted, "a call turns its own lock alone", at);
    };
    refused(store.lift_lock(head), Reason::wrong_lock);
    refused(store.lift_lock(packed_table), Reason::wrong_lock);
    for (NameNumber name : {head, aisle}) {
        turns(store.place_lock(name), locks + name.number(), 1);
        refused(store.place_lock(name), Reason::wrong_lock);
        refused(store.lift_lock(packed_table), Reason::wrong_lock);
    }
    turns(store.place_lock(packed_table), packed_lock, 1);
    refused(store.place_lock(PackedTable()), Reason::wrong_lock);
    for (NameNumber name : {head, aisle}) {
        turns(store.lift_lock(name), locks + name.number(), 0);
        refused(store.lift_lock(name), Reason::wrong_lock);
        refused(store.place_lock(packed_table), Reason::wrong_lock);
    }
    turns(store.lift_lock(PackedTable{}), packed_lock, 0);
    refused(store.place_lock(nobodys), Reason::not_registered, {65536});
    refused(store.lift_lock(nobodys), Reason::not_registered, {65536});
    check(site.region == before, "what was placed and lifted leaves no byte, and a refusal none");
}

// Prepare refuses these edits, and changes no byte.
static void prepare_refuses(Marked &site, std::initializer_list<Edit> edits, Reason reason, const std::vector<uint64_t> &places,
                            AT_CALLER)
{
    const Region before = site.region;
    refused(site.store.prepare(list_of(edits)), reason, places, at);
    check(site.region == before, "a refusal changes no byte", at);
}

// 25 has the row's own name, of a shelf that lies beneath the aisle or of the aisle above it.
static void test_prepare_beneath()
{
    Marked site;
    Store &store = site.store;
    const NameNumber shelf = store.add_name("refs/heads/aisle/shelf").value();
    done(store.load_loose(aisle, object(5)));
    prepare_refuses(site, {Delete(shelf)}, Reason::name_conflict, {2});
    prepare_refuses(site, {Update(shelf, object(6)).log_only()}, Reason::name_conflict, {2});
    done(store.load_loose(aisle, Loose::none()));
    done(store.load_loose(shelf, object(5)));
    prepare_refuses(site, {Update(head, object(6)).deref()}, Reason::name_conflict, {1}); // which HEAD led to
}

// Each other refusal of prepare, with all that comes with it.
static void test_prepare()
{
    Marked site;
    Store &store = site.store;
    const NameNumber tag = store.add_name("refs/tags/spring").value();
    done(store.load_loose(aisle, object(5)));
    auto refuses = [&](std::initializer_list<Edit> edits, Reason reason, const std::vector<uint64_t> &places = {}, AT_CALLER) {
        prepare_refuses(site, edits, reason, places, at);
    };
    refused(store.prepare(EditList(), Mode(0)), Reason::malformed);
    refused(store.prepare(EditList(), Mode(uint64_t(1) << 32 | 1)), Reason::malformed); // not cut down to 1
    refuses({Update(aisle, object(0))}, Reason::malformed);
    refuses({Update(NameNumber(3), object(1))}, Reason::not_registered, {3});
    refuses({Update(aisle, link(NameNumber(70000)))}, Reason::not_registered, {70000});
    refuses({Update(aisle, object(6)), Delete(aisle)}, Reason::multiple_edits, {1});
    refuses({Delete(tag).expecting(Expected::must_exist())}, Reason::delete_reference_must_exist, {2});
    refuses({Update(aisle, link(tag)).expecting(Expected::must_not_exist())}, Reason::must_not_exist, {1, 1, 5, 2, 2});
    refuses({Update(tag, object(6)).expecting(Expected::must_exist())}, Reason::must_exist, {2, 1, 0});
    refuses({Update(tag, object(6)).expecting(Expected::must_exist_and_match(link(head)))}, Reason::must_exist, {2, 2, 0});
    refuses({Update(head, object(6)).expecting(Expected::existing_must_match(object(9)))}, Reason::reference_out_of_date,
            {0, 1, 9, 2, 1});
    refuses({Delete(aisle).expecting(Expected::must_not_exist())}, Reason::delete_must_not_exist, {1});
    done(store.load_loose(aisle, Loose::none()));
    done(store.place_lock(aisle));
    refuses({Update(head, object(6)).deref()}, Reason::lock_acquire, {0});
    done(store.lift_lock(aisle));
    done(store.place_lock(packed_table));
    refuses({Update(aisle, object(6))}, Reason::packed_transaction_acquire);
    done(store.lift_lock(packed_table));
    done(store.load_loose(aisle, link(head)));
    refuses({Update(head, object(6)).deref()}, Reason::reference_cycle);
    Result<Transaction> transaction = store.prepare(list_of({Update(tag, object(8))}), Mode::updates_remove_loose);
    done(transaction);
    check(transaction.value().row_count() == 1, "one row");
    refused(store.prepare(EditList()), Reason::wrong_state);
}

// The log has room for 1,024 lines: 32 lists of 32 moves.
static void test_log_full()
{
    std::vector<std::string> names;
    for (size_t n = 0; n < 32; n++)
        names.push_back("refs/heads/aisle-" + std::to_string(n));
    Site site(names);
    for (uint64_t round = 1; round <= 32; round++) {
        EditList list;
        for (uint64_t n = 0; n < 32; n++)
            done(list.add(Update(NameNumber(n), object(round))));
        done(site.store.prepare(list).value().commit(Committer(65535)));
    }
    check(site.lines(NameNumber(31)).size() == 32, "32 lines of a name");
    refused(site.store.prepare(list_of({Update(NameNumber(0), object(99))})), Reason::log_full);
    refused(site.store.read_line(NameNumber(0), 32), Reason::nothing_there);
}

static void test_commit()
{
    Marked site;
    Store &store = site.store;
    refused(store.commit(Committer(1)), Reason::wrong_state);
    const EditList list = list_of({Update(head, object(7)).deref().message(Message(3))});
    {
        auto transaction = store.prepare(list).value();
        refused(transaction.commit(Committer(65536)), Reason::malformed);
        check(transaction.prepared() && store.read_row(1).done(), "it stays prepared");
        const Outcome outcome = transaction.commit(nobody).value();
        check(outcome.end == Outcome::End::no_committer && outcome.number() == 16 && outcome.writes == 0, "no committer");
    }
    Outcome outcome = store.prepare(list).value().commit(Committer(12), Allowance(2)).value();
    check(outcome.end == Outcome::End::used_up && outcome.number() == 17 && outcome.writes == 2, "two writes, and used up");
    check(!outcome.all_written(), "not all written");
    site.reads(aisle, std::nullopt, Place::absent);
    outcome = store.prepare(list).value().commit(Committer(12), Allowance(3)).value();
    check(outcome.all_written() && outcome.number() == 0 && outcome.writes == 3, "three writes are all");
    site.reads(aisle, object(7), Place::loose);
    check(site.lines(head) == std::vector<std::vector<uint64_t>>{{0, 7, 12, 3}, {0, 7, 12, 3}}, "HEAD's lines");
    refused(store.read_line(nobodys, 0), Reason::not_registered, {65536});
    refused(store.read_line(head, 2), Reason::nothing_there);
    refused(store.read_line(head, uint64_t(1) << 32), Reason::nothing_there);
}

static void test_rows()
{
    Marked site;
    refused(site.store.read_row(0), Reason::nothing_there);
    check(site.store.rollback().value() == 0, "nothing to roll back");
    done(site.store.load_loose(aisle, object(5)));
    const Expected expected = Expected::must_exist_and_match(object(5));
    const auto transaction =
        site.store.prepare(list_of({Update(head, object(7)).deref().force().message(Message(513)).expecting(expected)}));
    const Row row = site.store.read_row(0).value(), child = site.store.read_row(1).value();
    check(row.name == head && row.is_update && row.log_only && row.force && row.message == Message(513), "HEAD's row");
    check(row.expected == Expected::must_exist_and_match(link(aisle)) && row.next == object(7), "it found the link");
    check(!row.parent && row.leaf_previous == ObjectNumber(5), "and behind it object 5");
    check(row.found == Place::loose && child.found == Place::loose, "both are loose");
    check(child.name == aisle && child.is_update && !child.log_only && child.force && child.message == Message(513),
          "its child");
    check(child.expected == expected && child.next == object(7) && child.parent == uint64_t(0) && !child.leaf_previous,
          "the same");
    refused(site.store.read_row(2), Reason::nothing_there);
    check(site.store.rollback().value() == 2, "two rows given up");
    const auto removal = site.store.prepare(list_of({Delete(aisle).log_only()}));
    const Row removed = site.store.read_row(0).value();
    check(!removed.is_update && removed.log_only && !removed.force && !removed.next, "a delete's row");
}

static_assert(std::is_same_v<std::underlying_type_t<Place>, uint8_t>);
static_assert(uint8_t(Place::loose) == 1 && uint8_t(Place::packed) == 2 && uint8_t(Place::packed_behind_broken) == 3);
static_assert(uint8_t(Place::absent) == 4 && uint8_t(Place::absent_behind_broken) == 5);
static_assert(std::is_same_v<decltype(std::declval<const View &>().read_name(head)), Result<Found>>);
static_assert(std::is_same_v<decltype(Found::target), std::optional<Target>> && std::is_same_v<decltype(Found::place), Place>);
static_assert(std::is_same_v<decltype(Row::found), Place>);

static constexpr Found packed_three{Target::object(ObjectNumber(3)), Place::packed};
static_assert(packed_three == Found{Target::object(ObjectNumber(3)), Place::packed});
static_assert(packed_three != Found{Target::object(ObjectNumber(3)), Place::packed_behind_broken});
static_assert(packed_three != Found{Target::object(ObjectNumber(4)), Place::packed});
static_assert(Found{std::nullopt, Place::absent} != Found{std::nullopt, Place::absent_behind_broken});

// The aisle's values, what it reads and where, and where a row of the log alone finds it, which does not see what is packed.
struct Kept {
    Loose loose;
    std::optional<ObjectNumber> packed;
    std::optional<Target> target;
    Place seen, unseen;
};

// The five places, of a name and of a row, in each mode.
static void test_places()
{
    const ObjectNumber three(3);
    const Kept all[] = {
        {object(5), std::nullopt, object(5), Place::loose, Place::loose},
        {object(5), three, object(5), Place::loose, Place::loose},
        {link(head), three, link(head), Place::loose, Place::loose},
        {Loose::none(), three, object(3), Place::packed, Place::absent},
        {Loose::broken(), three, object(3), Place::packed_behind_broken, Place::absent_behind_broken},
        {Loose::none(), std::nullopt, std::nullopt, Place::absent, Place::absent},
        {Loose::broken(), std::nullopt, std::nullopt, Place::absent_behind_broken, Place::absent_behind_broken},
    };
    Site site({"HEAD", "refs/heads/aisle"});
    for (Mode mode : {Mode::deletions, Mode::updates, Mode::updates_remove_loose})
        for (const Kept &kept : all) {
            done(site.store.load_loose(aisle, kept.loose));
            done(site.store.load_packed(aisle, kept.packed));
            site.reads(aisle, kept.target, kept.seen);
            for (bool log_only : {false, true}) {
                const Update update(aisle, object(9));
                const auto transaction = site.store.prepare(list_of({log_only ? update.log_only() : update}), mode);
                done(transaction);
                const Place found = site.store.read_row(0).value().found;
                check(found == (log_only ? kept.unseen : kept.seen), "a row finds it " + to_string(found));
                site.reads(aisle, kept.target, kept.seen);
            }
        }
}

void test_calls()
{
    test_start();
    test_open();
    test_names();
    test_loads();
    test_locks();
    test_prepare();
    test_prepare_beneath();
    test_log_full();
    test_commit();
    test_rows();
    test_places();
}
