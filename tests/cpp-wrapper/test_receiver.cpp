// A receiver of fragments: made fresh, taken up, filled and closed; each call done and refused; and who has its bytes.
#include "parts.h"
#include "site.h"

#include <algorithm>
#include <cstring>
#include <type_traits>

using namespace std::string_view_literals;

static_assert(!std::is_copy_constructible_v<Receiver> && !std::is_copy_assignable_v<Receiver>);
static_assert(std::is_nothrow_move_constructible_v<Receiver> && std::is_nothrow_move_assignable_v<Receiver>);
static_assert(!std::is_default_constructible_v<Receiver>); // it has no bytes of its own
static_assert(std::is_same_v<decltype(std::declval<Receiver &>().close(std::declval<Store &>())), Result<Transaction>>);
static_assert(sizeof(ReceiverBytes) == 870);

static EditList some_list() { return list_of({Update(head, object(7)).deref()}); }

static std::string bytes_of(const EditList &list)
{
    return std::string(reinterpret_cast<const char *>(list.data()), list.size());
}

static bool is_fresh(const ReceiverBytes &bytes) { return bytes == ReceiverBytes{}; }

static bool holds(const Result<size_t> &held, size_t bytes) { return held && *held.get() == bytes; }

// Bytes of a receiver that is fresh, to begin with.
struct Inbox {
    ReceiverBytes bytes{};
    Receiver receiver = Receiver::fresh(bytes).value();
};

// ---- where it lies

static void test_fresh()
{
    ReceiverBytes bytes;
    bytes.fill(0xEE);
    Receiver receiver = Receiver::fresh(bytes).value();
    check(is_fresh(bytes) && holds(receiver.held(), 0), "it holds nothing, whatever the bytes were");
    check(holds(receiver.take("abc"sv), 3) && !is_fresh(bytes), "three bytes");
    done(receiver.make_fresh());
    check(is_fresh(bytes) && holds(receiver.held(), 0), "they are dropped");
    uint8_t longer[872];
    std::memset(longer, 0xEE, sizeof longer);
    for (size_t size : {0, 1, 869, 871, 872})
        refused(Receiver::fresh(longer, size), Reason::bad_region);
    refused(Receiver::fresh(nullptr, 870), Reason::bad_region);
    check(std::all_of(longer, longer + 872, [](uint8_t byte) { return byte == 0xEE; }), "a refusal writes nothing");
    done(Receiver::fresh(longer + 1, 870)); // anywhere, as in memory that programs share
    check(longer[0] == 0xEE && longer[871] == 0xEE && longer[1] == 0 && longer[870] == 0, "just its own bytes");
}

// What one has begun another goes on with, from the bytes alone.
static void test_open()
{
    Marked site;
    ReceiverBytes shared{};
    const std::string list = bytes_of(some_list());
    {
        Receiver first = Receiver::open(shared).value(); // zeros are a fresh one
        check(holds(first.take(list.substr(0, 20)), 20), "the first piece");
    }
    Receiver second = Receiver::open(shared.data(), shared.size()).value();
    check(holds(second.held(), 20) && holds(second.take(list.substr(20)), 31), "the second piece");
    check(second.close(site.store).value().row_count() == 2, "closed by another than began it");
    refused(Receiver::open(shared.data(), 869), Reason::bad_region);
    refused(Receiver::open(nullptr, 870), Reason::bad_region);
    for (const auto &[at, byte] : {std::pair<size_t, uint8_t>(0, 4), {1, 1}, {2, 1}, {869, 128}}) {
        ReceiverBytes damaged = shared;
        damaged[at] = byte;
        const ReceiverBytes before = damaged;
        // A count of 1 before a byte of 0 is what a fragment leaves, all the others are what none leaves.
        if (at == 1)
            done(Receiver::open(damaged));
        else
            refused(Receiver::open(damaged), Reason::bad_region);
        check(damaged == before, "it is only looked at");
    }
}

static void test_moves()
{
    Marked site;
    ReceiverBytes bytes{}, others{};
    Receiver first = Receiver::fresh(bytes).value(), other = Receiver::fresh(others).value();
    check(holds(first.take(bytes_of(some_list())), 31) && holds(other.take("abc"sv), 3), "both hold something");
    Receiver second = std::move(first);
    refused(first.held(), Reason::bad_region); // one that was moved from has no bytes
    refused(first.take("x"sv), Reason::bad_region);
    refused(first.make_fresh(), Reason::bad_region);
    refused(first.close(site.store), Reason::bad_region);
    check(holds(second.held(), 31), "it is moved");
    first = std::move(second);
    check(holds(first.held(), 31), "and back");
    first = std::move(other);
    check(holds(first.held(), 3), "an assignment leaves the bytes that were there");
    check(Receiver::open(bytes).value().close(site.store).value().row_count() == 2, "which hold what they held");
}

// ---- fragments

static void test_take()
{
    Inbox inbox;
    Receiver &receiver = inbox.receiver;
    const std::string all(868, 'x');
    check(holds(receiver.take(""sv), 0) && holds(receiver.take(std::string_view()), 0), "nothing");
    check(holds(receiver.take(nullptr, 0), 0) && holds(receiver.take(nullptr, 5), 0), "null is nothing");
    check(holds(receiver.take(std::string_view("a\0b", 3)), 3), "zeros are bytes");
    check(inbox.bytes[1] == 3 && inbox.bytes[2] == 'a' && inbox.bytes[3] == 0 && inbox.bytes[4] == 'b', "where they stand");
    const ReceiverBytes before = inbox.bytes;
    for (size_t size : {866, 867, 868, 869, 870, 65536 + 5})
        refused(receiver.take(std::string(size, 'y')), Reason::receiver_full);
    check(inbox.bytes == before && holds(receiver.held(), 3), "a fragment that is too long changes nothing");
    check(holds(receiver.take(std::string(865, 'y')), 868), "the last that there is room for");
    refused(receiver.take("z"sv), Reason::receiver_full);
    check(holds(receiver.take(""sv), 868), "it is full");
    done(receiver.make_fresh());
    check(holds(receiver.take(reinterpret_cast<const uint8_t *>(all.data()), all.size()), 868), "all at once");
    check(std::equal(all.begin(), all.end(), inbox.bytes.begin() + 2), "the bytes");
}

// Bytes that know how many they are, zeros among them.
static void test_take_ranges()
{
    Inbox inbox;
    const uint8_t plain[2] = {0, 1};
    std::array<uint8_t, 3> fixed = {2, 0, 3};
    const std::vector<uint8_t> grown = {4, 5, 6, 0};
    check(holds(inbox.receiver.take(plain), 2) && holds(inbox.receiver.take(fixed), 5) && holds(inbox.receiver.take(grown), 9),
          "an array, a std::array and a std::vector");
    check(holds(inbox.receiver.take(std::vector<uint8_t>()), 9), "an empty one");
    const std::vector<uint8_t> held = {0, 1, 2, 0, 3, 4, 5, 6, 0, 0};
    check(std::equal(held.begin(), held.end(), inbox.bytes.begin() + 2), "the bytes, and a zero behind them");
    refused(inbox.receiver.take(std::vector<uint8_t>(860, 7)), Reason::receiver_full);
}

// A fragment that lies in the receiver itself is copied first.
static void test_own_bytes()
{
    Inbox inbox;
    check(holds(inbox.receiver.take("abc"sv), 3), "three bytes");
    check(holds(inbox.receiver.take(inbox.bytes.data() + 2, 3), 6), "the same again");
    check(holds(inbox.receiver.take(inbox.bytes.data(), 8), 14), "and the count before them");
    const std::string held(inbox.bytes.begin() + 2, inbox.bytes.begin() + 16);
    check(held == std::string("abcabc\0\6abcabc", 14), "what is held");
    refused(inbox.receiver.take(inbox.bytes.data(), 870), Reason::receiver_full);
}

// ---- closing

// In two pieces, whatever they are.
static void arrives(Receiver &receiver, const std::string &list, AT_CALLER)
{
    const size_t half = list.size() / 2;
    check(holds(receiver.take(list.substr(0, half)), half) && holds(receiver.take(list.substr(half)), list.size()), "taken", at);
}

static void test_close()
{
    Marked site;
    Inbox inbox;
    Region plain = site.region;
    Store other = Store::open(plain).value();
    const Transaction by_list = other.prepare(some_list(), Mode::updates).value();
    arrives(inbox.receiver, bytes_of(some_list()));
    {
        Transaction transaction = inbox.receiver.close(site.store, Mode::updates).value();
        check(transaction.prepared() && transaction.row_count() == by_list.row_count(), "prepared");
        check(site.region == plain, "the region that the list itself leaves");
        check(is_fresh(inbox.bytes) && holds(inbox.receiver.held(), 0), "the receiver is fresh");
        arrives(inbox.receiver, bytes_of(some_list()));
        refused(inbox.receiver.close(site.store), Reason::wrong_state);
        check(transaction.prepared() && site.region == plain && is_fresh(inbox.bytes), "only the receiver is changed");
        arrives(inbox.receiver, bytes_of(list_of({Update(aisle, object(9))})));
        check(transaction.commit(Committer(1)).value().all_written(), "committed");
    }
    site.reads(aisle, object(7), Place::loose);
    check(inbox.receiver.close(site.store).value().commit(Committer(1)).value().all_written(), "and the next list");
    site.reads(aisle, object(9), Place::loose);
}

// What is prepared by a closing is rolled back where it is let go.
static void test_let_go()
{
    Marked site;
    Inbox inbox;
    const Region before = site.region;
    arrives(inbox.receiver, bytes_of(some_list()));
    {
        const auto result = inbox.receiver.close(site.store);
        done(result);
        check(site.region != before, "the rows stand in the region");
    }
    check(site.region == before, "out of scope it is rolled back");
    arrives(inbox.receiver, bytes_of(some_list()));
    auto store = std::make_unique<Store>(Store::open(site.region).value());
    const Transaction transaction = inbox.receiver.close(*store).value();
    store.reset();
    check(!transaction.prepared() && site.region == before, "rolled back with its store");
}

// Refused as prepare refuses, with what comes with it; and the receiver is fresh each time.
static void test_refused()
{
    Marked site;
    Inbox inbox;
    const Region before = site.region;
    auto refuses = [&](const std::string &held, Mode mode, Reason reason, const std::vector<uint64_t> &places, AT_CALLER) {
        done(inbox.receiver.take(held), at);
        refused(inbox.receiver.close(site.store, mode), reason, places, at);
        check(is_fresh(inbox.bytes) && site.region == before, "a fresh receiver, and the same region", at);
    };
    const std::string list = bytes_of(some_list());
    refuses("", Mode::deletions, Reason::malformed, {});
    refuses(list.substr(0, 30), Mode::deletions, Reason::malformed, {});
    refuses(list + "x", Mode::deletions, Reason::malformed, {});
    refuses(list, Mode(0), Reason::malformed, {});
    refuses(list, Mode(uint64_t(1) << 32 | 1), Reason::malformed, {}); // not cut down to 1
    refuses(bytes_of(list_of({Update(NameNumber(300), object(1))})), Mode::updates, Reason::not_registered, {300});
    refuses(bytes_of(list_of({Delete(aisle), Delete(aisle)})), Mode::updates, Reason::multiple_edits, {1});
    refuses(bytes_of(list_of({Update(head, object(1)).expecting(Expected::must_not_exist())})), Mode::deletions,
            Reason::must_not_exist, {0, 2, 1, 1, 1});
}

// Spoilt bytes, of a region or of a receiver: 1 of both. The receiver stays only if it is itself what is refused.
static void test_spoilt()
{
    Marked site;
    Inbox inbox;
    arrives(inbox.receiver, bytes_of(some_list()));
    inbox.bytes[0] = 9;
    const ReceiverBytes spoilt = inbox.bytes;
    const Region region = site.region;
    refused(inbox.receiver.held(), Reason::bad_region);
    refused(inbox.receiver.take("x"sv), Reason::bad_region);
    refused(inbox.receiver.close(site.store), Reason::bad_region);
    check(inbox.bytes == spoilt && site.region == region, "both stay");
    done(inbox.receiver.make_fresh());
    arrives(inbox.receiver, bytes_of(some_list()));
    site.region[0] = 9;
    refused(inbox.receiver.close(site.store), Reason::bad_region);
    check(is_fresh(inbox.bytes), "a good receiver is fresh after a bad region");
    site.region[0] = region[0];
    arrives(inbox.receiver, bytes_of(some_list()));
    Store moved = std::move(site.store);
    refused(inbox.receiver.close(site.store), Reason::bad_region); // a store that was moved from has no region
    check(is_fresh(inbox.bytes) && site.region == region, "and after none");
    site.store = std::move(moved);
}

void test_receiver()
{
    test_fresh();
    test_open();
    test_moves();
    test_take();
    test_take_ranges();
    test_own_bytes();
    test_close();
    test_let_go();
    test_refused();
    test_spoilt();
}
