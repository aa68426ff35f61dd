// Wrong sizes of region and record, regions that are not good, memory that can only be read, and pointers without alignment.
#include "dehlbazin.h"
#include "entries.h"
#include "samples.h"
#include "settings_samples.h"
#include "tests.h"
#include "text_samples.h"
#include "world.h"

#include <algorithm>

static const uint8_t OLD = 0xEE;

// Each call, some of them with something else to refuse.
static std::vector<Call> calls()
{
    using namespace call;
    const std::string list = write_list({updating(0, object(9))}), repeated = write_list({deleting(0), deleting(0)});
    return {
        start(2), start(3), add_name("NEW"), add_name("bad"), add_name(""), name_bytes(1), name_bytes(65536),
        load_loose(1, 1, 9), load_loose(9, 1, 9), load_loose(1, 4, 0),
        load_packed(1, 1, 9), load_packed(9, 1, 9), load_packed(0, 1, 9),
        place_lock_on_name(0), place_lock_on_name(2), lift_lock_of_name(2), lift_lock_of_name(65536),
        place_lock_on_packed(), place_lock_on_packed(65536), lift_lock_of_packed(), lift_lock_of_packed(~uint64_t(0)),
        place_lock(2, 0), place_lock(256, 65536), lift_lock(3, 65536), lift_lock((uint64_t(1) << 32) + 1, 2), rollback(),
        prepare(list, 1), prepare(list, 4), prepare("", 1), prepare(write_list({}), 2), prepare(repeated, 3),
        commit(1, 5), commit(0, 0), commit(65536, 1),
        read_name(1), read_name(65536), read_line(0, 1), read_line(0, 3), read_row(0), read_row(~uint64_t(0)),
        write_packed(std::string(200, 'x')), write_packed("x"), write_packed(""), read_packed(texts::text_of_shelves()),
        read_packed("x"), read_packed(""), read_packed(texts::ref(0, "refs/x")),
    };
}

static std::string with(const Call &call, const char *region, size_t region_len, size_t answer_len)
{
    return describe(call) + " with " + region + " of " + std::to_string(region_len) + " and a record of " +
           std::to_string(answer_len);
}

// The call gives 1 and leaves the region. A record of the right size is filled with zeros, any other is left.
static void is_refused(const Call &call, const char *kind, const Bytes &region, size_t answer_len, AT_CALLER)
{
    Lent lent(region), record(answer_len, OLD);
    uint32_t number = run(call, lent.data(), lent.size(), record.data(), record.size());
    std::string what = with(call, kind, region.size(), answer_len);
    check(number == 1, what + ": number " + std::to_string(number), at);
    check(lent.holds(region), what + ": the region is changed", at);
    check(record.is_filled(answer_len == ANSWER ? 0 : OLD), what + ": the record", at);
    check(lent.is_alone() && record.is_alone(), what + ": bytes before them are written", at);
}

static const size_t ANSWER_SIZES[] = {0, 1, 127, 128, 129, 256 + 128, 65536 + 128};
static const size_t REGION_SIZES[] = {0, 1, REGION - 1, REGION, REGION + 1, 2 * REGION, 65536 + REGION};

static void test_lengths()
{
    for (const Store &store : {busy(), prepared()})
        for (const Call &call : calls())
            for (size_t region_len : REGION_SIZES)
                for (size_t answer_len : ANSWER_SIZES) {
                    if (region_len == REGION && answer_len == ANSWER)
                        continue;
                    Bytes region = encode(store);
                    region.resize(region_len);
                    is_refused(call, "a region", region, answer_len);
                }
}

static void test_null()
{
    for (const Call &call : calls()) {
        Lent record(ANSWER, OLD), region(encode(busy()));
        check(run(call, nullptr, 0, record.data(), record.size()) == 1, describe(call) + " with no region");
        check(record.is_filled(0), describe(call) + " with no region: the record is not all 0");
        check(run(call, region.data(), region.size(), nullptr, 0) == 1, describe(call) + " with no record");
        check(region.holds(encode(busy())), describe(call) + " with no record: the region is changed");
        check(run(call, nullptr, 0, nullptr, 0) == 1, describe(call) + " with neither region nor record");
    }
}

// Regions of the right size that are not good, one defect each: of the form, of the padding, and of the rules.
static std::vector<Bytes> bad_regions()
{
    std::vector<Bytes> bad;
    auto with_byte = [&](const Store &store, size_t at, uint8_t byte) {
        Bytes region = encode(store);
        region[at] = byte;
        bad.push_back(region);
    };
    bad.push_back(Bytes(REGION, 0));
    bad.push_back(Bytes(REGION, 0xFF));
    with_byte(busy(), 0, 2);                          // the version
    with_byte(busy(), 4, 0x89);                       // the length of the rest
    with_byte(busy(), REGION - 1, 1);                 // the last byte
    with_byte(busy(), NAMES.slot(1) - 1, 1);          // the tail of a name
    with_byte(busy(), LOOSE.slot(0) + 8, 5);          // a link to a name that is not registered
    with_byte(prepared(), LOCKS.slot(0), FREE);       // a row's lock
    with_byte(prepared(), AT_PACKED_LOCK, FOREIGN);   // the packed table's
    with_byte(prepared(), AT_MODE, 0);                // rows, and nothing prepared
    return bad;
}

static void test_bad_regions()
{
    for (const Bytes &region : bad_regions())
        for (const Call &call : calls())
            for (size_t answer_len : ANSWER_SIZES)
                if (call.op != Op::start || answer_len != ANSWER)
                    is_refused(call, "a bad region", region, answer_len);

    // Start looks at nothing but the size, so a bad region serves it.
    for (const Bytes &region : bad_regions())
        for (uint64_t setting : {0, 1, 2, 3}) {
            Lent lent(region), record(ANSWER, OLD);
            uint32_t number = dehlbazin_start(lent.data(), lent.size(), setting, record.data(), record.size());
            Store empty;
            empty.setting = uint8_t(setting);
            check(number == (setting == 3 ? 2 : 0), "start on a bad region: number " + std::to_string(number));
            check(lent.holds(setting == 3 ? region : encode(empty)), "start on a bad region: the region");
            check(record.is_filled(0), "start on a bad region: the record");
        }
}

static void test_start()
{
    for (const Store &store : {busy(), prepared(), Store{}})
        for (uint64_t setting : {0, 1, 2}) {
            World world(store);
            world.gives(call::start(setting), 0);
            world.gives(call::name_bytes(0), 3, {0});
            world.gives(call::read_row(0), 22);
            world.gives(call::rollback(), 0, {0});
            world.gives(call::place_lock_on_packed(), 0);
        }
    World world(prepared());
    for (uint64_t setting : {3, 4, 255})
        world.gives(call::start(setting), 2);
    for (uint64_t k : {0, 1, 2})
        for (uint64_t setting : too_large(k))
            world.gives(call::start(setting), 2);
}

// Records to start with: good ones of both versions, malformed ones, and ones of a version that is not known.
static std::vector<Bytes> records()
{
    Bytes malformed = settings::example(2), unknown = malformed;
    malformed.pop_back();
    unknown[0] = 3;
    return {settings::example(1), settings::example(2), malformed, unknown, {}};
}

// Start with a record: the sizes come first, whatever the record is.
static void test_start_with_settings()
{
    auto is_refused = [](const Bytes &settings, const Bytes &region, size_t answer_len) {
        Lent lent(region), record(settings), answer(answer_len, OLD);
        uint32_t number = dehlbazin_start_with_settings(lent.data(), lent.size(), record.data(), record.size(), answer.data(),
                                                        answer.size());
        std::string what = "start with a settings record of " + std::to_string(settings.size()) + " in a region of " +
                           std::to_string(region.size()) + " with an answer of " + std::to_string(answer_len);
        check(number == 1, what + ": number " + std::to_string(number));
        check(lent.holds(region) && record.holds(settings), what + ": what is lent is changed");
        check(answer.is_filled(answer_len == ANSWER ? 0 : OLD), what + ": the answer");
        check(lent.is_alone() && record.is_alone() && answer.is_alone(), what + ": bytes before them are written");
    };
    for (const Bytes &settings : records())
        for (size_t region_len : REGION_SIZES)
            for (size_t answer_len : ANSWER_SIZES) {
                Bytes region = encode(prepared());
                region.resize(region_len);
                if (region_len != REGION || answer_len != ANSWER)
                    is_refused(settings, region, answer_len);
            }
}

// It looks at nothing else of the region, so a bad one serves it, and is left as it is where the record is refused.
static void test_settings_in_bad_regions()
{
    for (const Bytes &region : bad_regions())
        for (const Bytes &settings : records()) {
            Lent lent(region), record(settings), answer(ANSWER, OLD);
            uint32_t number =
                dehlbazin_start_with_settings(lent.data(), REGION, record.data(), record.size(), answer.data(), ANSWER);
            Store empty;
            const uint32_t wanted = settings::start_with_settings(empty, settings).number;
            check(number == wanted, "start with settings on a bad region: number " + std::to_string(number));
            check(lent.holds(wanted == 0 ? encode(empty) : region), "start with settings on a bad region: the region");
            check(answer.is_filled(0), "start with settings on a bad region: the answer");
        }
    for (const Bytes &settings : records()) {
        Lent region(encode(busy())), record(settings), answer(ANSWER, OLD);
        const uint8_t *bytes = record.data();
        check(dehlbazin_start_with_settings(nullptr, 0, bytes, record.size(), answer.data(), ANSWER) == 1, "with no region");
        check(answer.is_filled(0), "with no region: the answer is not all 0");
        check(dehlbazin_start_with_settings(region.data(), REGION, bytes, record.size(), nullptr, 0) == 1, "with no answer");
        check(dehlbazin_start_with_settings(nullptr, 0, nullptr, 0, nullptr, 0) == 1, "with nothing");
        check(dehlbazin_start_with_settings(region.data(), REGION, nullptr, 0, answer.data(), ANSWER) == 23, "with no settings");
        check(region.holds(encode(busy())), "the region is changed");
    }
}

// The same calls with the region, the list and the record at each of 16 alignments.
static void test_alignment()
{
    for (size_t shift = 0; shift < 16; shift++) {
        Bytes room(REGION + ANSWER + 64, 0x77), name = {'N', 'E', 'W'};
        uint8_t *region = room.data() + shift, *record = region + REGION + 3 * shift % 16;
        Bytes image = encode(busy());
        std::copy(image.begin(), image.end(), region);
        std::string what = "at alignment " + std::to_string(shift);
        check(dehlbazin_add_name(region, REGION, name.data(), name.size(), record, ANSWER) == 0, what);
        check(dehlbazin_place(record, 0) == 5, what);
        check(dehlbazin_load_loose(region, REGION, 5, 1, 0x1122334455667788, record, ANSWER) == 0, what);
        check(dehlbazin_read_name(region, REGION, 5, record, ANSWER) == 0, what);
        check(dehlbazin_place(record, 0) == 1 && dehlbazin_place(record, 1) == 0x1122334455667788, what);
        check(dehlbazin_place(record, 2) == PLACE_LOOSE, what);
        const std::string list = write_list({updating(5, object(0x99AABBCCDDEEFF00))}), lent = std::string(shift, 'x') + list;
        const uint8_t *edits = reinterpret_cast<const uint8_t *>(lent.data()) + shift;
        check(dehlbazin_prepare(region, REGION, edits, list.size(), 1, record, ANSWER) == 0, what);
        check(dehlbazin_place(record, 0) == 1, what);
        Store after = busy();
        after.entries.push_back({"NEW", object(0x1122334455667788), 0, FREE});
        answer_of(after, call::prepare(list, 1));
        check(encode(after) == Bytes(region, region + REGION), what);
        check(dehlbazin_commit(region, REGION, 258, 9, record, ANSWER) == 0, what);
        check(dehlbazin_place(record, 0) == 1, what);
        answer_of(after, call::commit(258, 9));
        check(encode(after) == Bytes(region, region + REGION), what);
        const Bytes site = settings::example(2);
        check(dehlbazin_start_with_settings(region, REGION, site.data(), site.size(), record, ANSWER) == 0, what);
        check(encode(Store{1, {}, FREE, {}, 0, {}}) == Bytes(region, region + REGION), what);
        check(std::all_of(room.data(), region, [](uint8_t b) { return b == 0x77; }), what);
        check(std::all_of(region + REGION, record, [](uint8_t b) { return b == 0x77; }), what);
        check(std::all_of(record + ANSWER, room.data() + room.size(), [](uint8_t b) { return b == 0x77; }), what);
    }
}

// The calls that only read do so in memory that cannot be written.
static void test_only_read()
{
    for (const Store &store : {busy(), prepared()})
        for (const Call &call : calls()) {
            if (call.op != Op::name_bytes && call.op != Op::read_name && call.op != Op::read_line && call.op != Op::read_row &&
                call.op != Op::write_packed)
                continue;
            Lent region(encode(store)), record(ANSWER, OLD);
            region.only_read();
            std::string left;
            uint32_t number = run(call, region.data(), region.size(), record.data(), record.size(), &left);
            Store same = store;
            Answer wanted = answer_of(same, call);
            check(number == wanted.number, describe(call) + " in memory that can only be read");
            check(dehlbazin_place(record.data(), 0) == wanted.places[0], describe(call) + " in memory that can only be read");
            check(left == left_of(store, call), describe(call) + " in memory that can only be read: the buffer");
        }
}

void test_sizes()
{
    test_lengths();
    test_null();
    test_bad_regions();
    test_start();
    test_start_with_settings();
    test_settings_in_bad_regions();
    test_only_read();
    test_alignment();
}
