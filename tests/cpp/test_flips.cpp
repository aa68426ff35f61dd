// Each bit of a region turned over in turn, or one bit of each N; each in use of regions with names beneath others; and each
// that says where values are found, before every read. The archive and our own decoder must take the same ones for good, and a call
// on those must do what it does on our own store. What our decoder accepts, our encoder writes as the same bytes again.
#include "entries.h"
#include "samples.h"
#include "share.h"
#include "tests.h"
#include "text_samples.h"
#include "world.h"

#include <atomic>

// Every call but start tests the region, so they take turns. 23 of them, an odd number, so that each meets every bit of a byte:
// prepare has three lists, one for names without a packed value, one that meets the packed table's lock, and one that meets a value
// above a name; the second load meets one beneath; commit makes all writes, and those before the third. Locks are placed and lifted
// by each kind, and by one that there is not: the region comes before the kind.
static std::vector<Call> calls()
{
    using namespace call;
    return {
        read_row(1000000), read_row(1), rollback(), read_name(1), name_bytes(4), load_loose(1, OBJECT, 6),
        load_packed(1, NONE, 0), place_lock_on_name(0), lift_lock_of_name(2), place_lock_on_packed(~uint64_t(0)),
        lift_lock_of_packed(2), place_lock(2, 0), lift_lock(uint64_t(1) << 32, 65536), read_line(3, 0),
        add_name("refs/heads/new"), prepare(write_list({updating(0, object(6)), deleting(3)}), 3),
        prepare(write_list({through(updating(0, object(6)))}), 1), commit(258, ~uint64_t(0)), commit(1, 2),
        prepare(write_list({log_only(deleting(5)), updating(1, link(0))}), 2), load_loose(4, BROKEN, 0),
        write_packed(std::string(200, 'x')), read_packed(texts::text_by_git()),
    };
}

// A copy of the region, and a record.
struct Copy {
    Lent region, record{128};
    Bytes wanted;

    explicit Copy(const Bytes &bytes) : region(bytes), wanted(bytes) {}

    // Checks the region as it stands in `wanted`, leaves it so, and says whether it is good.
    bool agrees(const Call &call, size_t bit)
    {
        std::string wrong;
        std::optional<Store> own = decode(wanted);
        if (own && encode(*own) != wanted)
            wrong = "our own encoder writes other bytes";
        Answer answer = own ? answer_of(*own, call) : ::answer(1);
        record.fill(0xEE);
        std::string left;
        uint32_t number = run(call, region.data(), region.size(), record.data(), record.size(), &left);
        bool places = true;
        for (size_t i = 0; i < record.size(); i++)
            places &= record.data()[i] == uint8_t(answer.places[i / 8] >> (56 - 8 * (i % 8)));
        if (number != answer.number)
            wrong = "number " + std::to_string(number) + " instead of " + std::to_string(answer.number);
        else if (!places)
            wrong = "the record";
        else if (left != (own ? left_of(*own, call) : call.bytes))
            wrong = "the buffer";
        else if (!region.holds(own ? encode(*own) : wanted))
            wrong = "the region";
        else if (!region.is_alone() || !record.is_alone())
            wrong = "bytes before the region or the record are written";
        if (wrong.empty())
            passed();
        else
            failed({__FILE__, __LINE__}, "bit " + std::to_string(bit % 8) + " of byte " + std::to_string(bit / 8) + ", " +
                                             describe(call) + ": " + wrong);
        if (own || !wrong.empty())
            region.set(wanted);
        return own.has_value();
    }
};

// Turns one bit over, checks the region, turns it back, and says whether the region was good in between.
static bool flip(Copy &copy, size_t bit, const Call &call)
{
    uint8_t &wanted = copy.wanted[bit / 8], &lent = copy.region.data()[bit / 8];
    lent = wanted ^= uint8_t(1 << bit % 8);
    bool good = copy.agrees(call, bit);
    lent = wanted ^= uint8_t(1 << bit % 8);
    return good;
}

// One bit of each group of so many, from one group to another. Its place in the group wanders: where groups are whole bytes, a
// place that stayed would be the same bit of a byte in each of them.
static void flip_groups(const Bytes &bytes, size_t first, size_t end, size_t size)
{
    const std::vector<Call> turns = calls();
    Copy copy(bytes);
    for (size_t group = first; group < end; group++) {
        size_t bit = group * size + (uint32_t(group * 2654435761u) >> 16) % size;
        if (bit < REGION * 8)
            flip(copy, bit, turns[group % turns.size()]);
    }
}

// Which bits are turned over does not depend on how many processors there are.
static void flip_share(const Bytes &bytes, size_t size)
{
    size_t groups = (REGION * 8 - 1) / size + 1;
    share_out(groups, [&](size_t first, size_t end) { flip_groups(bytes, first, end, size); });
}

// Few bits may all be of one kind, the ones that must not be turned over. So that the region is taken for good where it is, and
// for bad where it is not, some bits of both kinds are always turned over: docs/LAYOUT.md leaves a line's message free, and fixes
// the version and the length.
static void flip_known(const Store &store, const Bytes &bytes)
{
    const std::vector<Call> turns = calls();
    Copy copy(bytes);
    for (size_t i = 0; i < store.lines.size(); i++)
        for (size_t bit = 8 * (LINES.slot(i) + 20); bit < 8 * LINES.slot(i + 1); bit++)
            check(flip(copy, bit, turns[bit % turns.size()]),
                  "bit " + std::to_string(bit) + ", of a message, is turned over, and the region is good no more");
    for (size_t bit = 0; bit < 8 * AT_SETTING; bit++)
        check(!flip(copy, bit, turns[bit % turns.size()]),
              "bit " + std::to_string(bit) + ", of the version or the length, is turned over, and the region is good still");
}

// Bits that make a loose value above or beneath another, or a row that 25 would refuse, and that break no other rule. They are
// turned over before every call, however few of the others are.
static void flip_into_conflicts(const Store &store, const std::vector<size_t> &bits)
{
    Copy copy(encode(store));
    for (size_t bit : bits)
        for (const Call &call : calls())
            check(!flip(copy, bit, call), "bit " + std::to_string(bit) + " is turned over, and the region is good still");
}

static void flip_used(const Store &store)
{
    const std::vector<size_t> bits = bits_in_use(store);
    const std::vector<Call> turns = calls();
    share_out(bits.size(), [&](size_t first, size_t end) {
        Copy copy(encode(store));
        for (size_t i = first; i < end; i++)
            flip(copy, bits[i], turns[i % turns.size()]);
    });
}

static void flip_nested()
{
    for (const Store &store : {nested(), nested_prepared()})
        flip_used(store);
    auto bit = [](size_t byte, size_t number) { return 8 * byte + number; };
    auto linked = [=](size_t name) { return bit(LOOSE.slot(name), 1); }; // none becomes a link to name 0
    const size_t slash = sizeof "refs/heads/a" - 1;                      // where another byte becomes one
    flip_into_conflicts(nested(), {linked(1), linked(4), bit(name_offset(2) + slash, 0), bit(name_offset(3) + slash, 6),
                                   bit(name_offset(6) + slash, 1)});
    flip_into_conflicts(nested_prepared(), {bit(AT_MODE, 0), bit(AT_MODE, 1), linked(0), linked(4), linked(5), linked(7),
                                            bit(name_offset(3) + slash, 0), bit(ROWS.slot(3) + 3, 0)});
}

// The bytes that say where values are found: the kinds of the loose ones, the packed ones, and what opens the packed table.
static std::vector<size_t> bytes_of_places(const Store &store)
{
    std::vector<size_t> bytes = {AT_MODE, AT_PACKED_LOCK};
    for (size_t n = 0; n < store.entries.size(); n++) {
        bytes.push_back(LOOSE.slot(n));
        for (size_t at = PACKED.slot(n); at < PACKED.slot(n + 1); at++)
            bytes.push_back(at);
    }
    for (size_t i = 0; i < store.rows.size(); i++)
        for (size_t at : {0, 1, 2, 3, 17}) // its name, kind, log, and the kind of its new target
            bytes.push_back(ROWS.slot(i) + at);
    return bytes;
}

// Each of their bits is turned over before every name is read, and every row. A packed value is one whichever of its bits is set.
static void flip_places(const Store &store)
{
    std::vector<Call> reads;
    for (size_t n = 0; n < store.entries.size(); n++)
        reads.push_back(call::read_name(n));
    for (size_t i = 0; i < store.rows.size(); i++)
        reads.push_back(call::read_row(i));
    const std::vector<size_t> bytes = bytes_of_places(store);
    std::atomic<size_t> good = 0;
    share_out(8 * bytes.size(), [&](size_t first, size_t end) {
        Copy copy(encode(store));
        for (size_t i = first; i < end; i++)
            for (const Call &read : reads)
                good += flip(copy, 8 * bytes[i / 8] + i % 8, read);
    });
    check(good > 300 * reads.size(), "few of the bits that say where values are found leave a good region");
}

void test_flips(size_t every)
{
    flip_nested();
    for (const Store &store : {prepared(), unopened()})
        flip_places(store);
    for (const Store &store : {busy(), prepared()}) {
        const Bytes bytes = encode(store);
        flip_known(store, bytes);
        flip_share(bytes, every);
    }
}
