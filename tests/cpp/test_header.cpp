// The header: its constants are those of docs/SPEC.md, docs/LAYOUT.md, docs/PACKED-TEXT.md, docs/SETTINGS.md and docs/ABI.md, its
// entries are those of this list, its reader of places is right, and it serves C.
#include "calls.h"
#include "check.h"
#include "dehlbazin.h"
#include "image.h"
#include "lent.h"
#include "packed_text.h"
#include "receiver.h"
#include "samples.h"
#include "settings_samples.h"
#include "tests.h"
#include "text_samples.h"

#include <algorithm>
#include <fstream>
#include <set>

extern "C" uint64_t first_name_from_c(uint8_t *region, size_t region_len, uint32_t *number);
extern "C" size_t list_from_c(uint8_t *list);
extern "C" uint32_t move_from_c(uint8_t *region, size_t region_len, const uint8_t *list, size_t list_len, uint64_t *writes);
extern "C" uint32_t fragments_from_c(uint8_t *region, size_t region_len, const uint8_t *list, size_t list_len, uint64_t *rows);
extern "C" uint64_t backup_from_c(const uint8_t *from, uint8_t *to, uint8_t *buffer, size_t buffer_len, uint32_t *number);
extern "C" size_t settings_from_c(uint8_t *buffer, size_t buffer_len, uint32_t *number);
extern "C" uint64_t site_from_c(uint8_t *region, size_t region_len, const uint8_t *record, size_t record_len, uint32_t *number);

#if DEHLBAZIN_VERSION != 10000
#error "the version is not 0.10.0, or #if cannot read it"
#endif
static_assert(DEHLBAZIN_VERSION_MAJOR == 0 && DEHLBAZIN_VERSION_MINOR == 10 && DEHLBAZIN_VERSION_PATCH == 0);
static_assert(DEHLBAZIN_LAYOUT_VERSION == 1);
static_assert(DEHLBAZIN_REGION_SIZE == REGION && DEHLBAZIN_ANSWER_SIZE == 16 * 8);
static_assert(DEHLBAZIN_RECEIVER_SIZE == 870 && DEHLBAZIN_RECEIVER_SIZE == receiver::SIZE);

static_assert(DEHLBAZIN_DONE == 0 && DEHLBAZIN_BAD_REGION == 1 && DEHLBAZIN_MALFORMED == 2);
static_assert(DEHLBAZIN_NOT_REGISTERED == 3 && DEHLBAZIN_REFERENCE_CYCLE == 4 && DEHLBAZIN_TOO_MANY_ROWS == 5);
static_assert(DEHLBAZIN_MULTIPLE_EDITS == 6 && DEHLBAZIN_PACKED_TRANSACTION_ACQUIRE == 7 && DEHLBAZIN_LOCK_ACQUIRE == 8);
static_assert(DEHLBAZIN_DELETE_REFERENCE_MUST_EXIST == 9 && DEHLBAZIN_MUST_NOT_EXIST == 10 && DEHLBAZIN_MUST_EXIST == 11);
static_assert(DEHLBAZIN_REFERENCE_OUT_OF_DATE == 12 && DEHLBAZIN_DELETE_MUST_NOT_EXIST == 13 && DEHLBAZIN_LOG_FULL == 14);
static_assert(DEHLBAZIN_WRONG_STATE == 15 && DEHLBAZIN_NO_COMMITTER == 16 && DEHLBAZIN_USED_UP == 17);
static_assert(DEHLBAZIN_BAD_NAME == 18 && DEHLBAZIN_NAMES_FULL == 19 && DEHLBAZIN_WRONG_LOCK == 20);
static_assert(DEHLBAZIN_BAD_LOAD == 21 && DEHLBAZIN_NOTHING_THERE == 22 && DEHLBAZIN_MALFORMED_RECORD == 23);
static_assert(DEHLBAZIN_UNKNOWN_VERSION == 24 && DEHLBAZIN_NAME_CONFLICT == 25 && DEHLBAZIN_RECEIVER_FULL == 26);
static_assert(DEHLBAZIN_MALFORMED_LINE == 27 && DEHLBAZIN_TEXT_TOO_LONG == 32 && DEHLBAZIN_SHORT_BUFFER == 33);

static_assert(DEHLBAZIN_SETTING_NEVER == 0 && DEHLBAZIN_SETTING_NORMAL == 1 && DEHLBAZIN_SETTING_ALWAYS == 2);
static_assert(DEHLBAZIN_KIND_NONE == NONE && DEHLBAZIN_KIND_OBJECT == OBJECT);
static_assert(DEHLBAZIN_KIND_LINK == LINK && DEHLBAZIN_KIND_BROKEN == BROKEN);
static_assert(DEHLBAZIN_PLACE_LOOSE == PLACE_LOOSE && DEHLBAZIN_PLACE_PACKED == PLACE_PACKED);
static_assert(DEHLBAZIN_PLACE_PACKED_BEHIND_BROKEN == PLACE_PACKED_BEHIND_BROKEN && DEHLBAZIN_PLACE_ABSENT == PLACE_ABSENT);
static_assert(DEHLBAZIN_PLACE_ABSENT_BEHIND_BROKEN == PLACE_ABSENT_BEHIND_BROKEN);
static_assert(DEHLBAZIN_LOCKABLE_NAME == LOCKABLE_NAME && DEHLBAZIN_LOCKABLE_PACKED_TABLE == LOCKABLE_PACKED_TABLE);
static_assert(DEHLBAZIN_MODE_DELETIONS == 1 && DEHLBAZIN_MODE_UPDATES == 2 && DEHLBAZIN_MODE_UPDATES_REMOVE_LOOSE == 3);
static_assert(DEHLBAZIN_ROW_UPDATE == UPDATE && DEHLBAZIN_ROW_DELETE == DELETE);
static_assert(DEHLBAZIN_LOG_AND_REFERENCE == 0 && DEHLBAZIN_LOG_ONLY == 1);
static_assert(DEHLBAZIN_EXPECTED_ANY == ANY && DEHLBAZIN_EXPECTED_MUST_EXIST == MUST_EXIST);
static_assert(DEHLBAZIN_EXPECTED_MUST_NOT_EXIST == MUST_NOT_EXIST);
static_assert(DEHLBAZIN_EXPECTED_MUST_EXIST_AND_MATCH == MUST_EXIST_AND_MATCH);
static_assert(DEHLBAZIN_EXPECTED_EXISTING_MUST_MATCH == EXISTING_MUST_MATCH);

static_assert(DEHLBAZIN_LIST_VERSION == 1 && DEHLBAZIN_LIST_HEADER_SIZE == LIST_HEADER && DEHLBAZIN_LIST_EDIT_SIZE == RECORD);
static_assert(DEHLBAZIN_LIST_MOST_EDITS == MOST_EDITS && DEHLBAZIN_LIST_MOST_BYTES == 868);
static_assert(DEHLBAZIN_LIST_AT_VERSION == 0 && DEHLBAZIN_LIST_AT_LENGTH == 1 && DEHLBAZIN_LIST_AT_COUNT == 3);
static_assert(DEHLBAZIN_EDIT_AT_KIND == AT_EDIT_KIND && DEHLBAZIN_EDIT_AT_DEREF == AT_DEREF);
static_assert(DEHLBAZIN_EDIT_AT_LOG == AT_LOG && DEHLBAZIN_EDIT_AT_FORCE == AT_FORCE);
static_assert(DEHLBAZIN_EDIT_AT_EXPECTED == AT_EXPECTED && DEHLBAZIN_EDIT_AT_EXPECTED_KIND == AT_EXPECTED_TARGET);
static_assert(DEHLBAZIN_EDIT_AT_EXPECTED_NUMBER == AT_EXPECTED_TARGET + 1 && DEHLBAZIN_EDIT_AT_NEW_KIND == AT_NEW_TARGET);
static_assert(DEHLBAZIN_EDIT_AT_NEW_NUMBER == AT_NEW_TARGET + 1 && DEHLBAZIN_EDIT_AT_NAME == AT_NAME);
static_assert(DEHLBAZIN_EDIT_AT_MESSAGE == AT_MESSAGE && AT_MESSAGE + 2 == RECORD);

static_assert(DEHLBAZIN_RECEIVER_AT_COUNT == 0 && DEHLBAZIN_RECEIVER_AT_BYTES == receiver::AT_BYTES);
static_assert(DEHLBAZIN_RECEIVER_AT_BYTES == 2 && DEHLBAZIN_LIST_MOST_BYTES == receiver::ROOM);
static_assert(DEHLBAZIN_RECEIVER_AT_BYTES + DEHLBAZIN_LIST_MOST_BYTES == DEHLBAZIN_RECEIVER_SIZE);

static_assert(DEHLBAZIN_PACKED_TEXT_DIGITS == packed_text::DIGITS && DEHLBAZIN_PACKED_TEXT_DIGITS == 24 + 16);
static_assert(DEHLBAZIN_PACKED_TEXT_MOST_BYTES == packed_text::MOST_BYTES && packed_text::MOST_BYTES == 27136);

static_assert(DEHLBAZIN_SETTINGS_VERSION_1 == settings::VERSION_1 && DEHLBAZIN_SETTINGS_VERSION_2 == settings::VERSION_2);
static_assert(DEHLBAZIN_SETTINGS_MOST_COMMITTERS == settings::MOST_COMMITTERS);
static_assert(DEHLBAZIN_SETTINGS_MOST_NAME_BYTES == settings::MOST_NAME);
static_assert(DEHLBAZIN_SETTINGS_MOST_BYTES == settings::MOST_BYTES && settings::MOST_BYTES == 19 + 16 * (3 + 32));

// The record ends where nothing may be read, and no place but the first sixteen is read: not even where eight times the place is
// a small number again.
static void test_place()
{
    Lent record(DEHLBAZIN_ANSWER_SIZE);
    for (size_t i = 0; i < record.size(); i++)
        record.data()[i] = uint8_t(i + 128);
    check(dehlbazin_place(record.data(), 0) == 0x8081828384858687, "place 0");
    check(dehlbazin_place(record.data(), 15) == 0xF8F9FAFBFCFDFEFF, "place 15");
    for (size_t past : {size_t(16), size_t(17), SIZE_MAX / 8, SIZE_MAX / 8 + 1, SIZE_MAX / 8 + 16, SIZE_MAX - 1, SIZE_MAX})
        check(dehlbazin_place(record.data(), past) == 0, "place " + std::to_string(past) + " is not 0");
}

// The header is read as text: an entry begins a line, with its type and its name.
static void test_entries()
{
    const std::set<std::string> stated = {
        "start", "add_name", "name_bytes", "load_loose", "load_packed", "place_lock", "lift_lock", "prepare", "commit", "rollback",
        "read_name", "read_line", "read_row", "write_packed", "read_packed", "fresh_receiver", "take_fragment", "close_receiver",
        "start_with_settings", "read_settings", "read_committer", "write_settings",
    };
    check(stated.size() == 22, "22 entries");
    std::ifstream header("include/dehlbazin.h");
    const std::string begin = "uint32_t dehlbazin_";
    std::multiset<std::string> declared;
    for (std::string line; std::getline(header, line);)
        if (line.rfind(begin, 0) == 0)
            declared.insert(line.substr(begin.size(), line.find('(') - begin.size()));
    check(declared == std::multiset<std::string>(stated.begin(), stated.end()), "the header's entries are others");
}

// Byte 0 of an image is the layout's version, in one that the archive writes and in our own.
static void test_layout_version()
{
    Bytes region(DEHLBAZIN_REGION_SIZE, 0xEE), answer(DEHLBAZIN_ANSWER_SIZE);
    uint32_t number =
        dehlbazin_start(region.data(), region.size(), DEHLBAZIN_SETTING_NORMAL, answer.data(), answer.size());
    check(number == DEHLBAZIN_DONE && region[0] == DEHLBAZIN_LAYOUT_VERSION, "the version of a region that is started");
    for (const Store &store : {Store{}, busy(), prepared()})
        check(encode(store)[0] == DEHLBAZIN_LAYOUT_VERSION, "the version of an image");
}

// One place of the answer to a call on a store.
static uint64_t place_of(uint32_t number, const Bytes &answer, size_t place)
{
    return number == DEHLBAZIN_DONE ? dehlbazin_place(answer.data(), place) : ~uint64_t(0);
}

// Where the answers to the calls on a name stand.
static void test_name_places()
{
    Bytes region = encode(prepared()), answer(DEHLBAZIN_ANSWER_SIZE);
    uint32_t number = dehlbazin_name_bytes(region.data(), region.size(), 1, answer.data(), answer.size());
    check(place_of(number, answer, DEHLBAZIN_NAME_BYTES_OFFSET) == name_offset(1), "the offset of a name");
    check(place_of(number, answer, DEHLBAZIN_NAME_BYTES_LENGTH) == 16, "the length of a name");

    number = dehlbazin_read_name(region.data(), region.size(), 0, answer.data(), answer.size());
    check(place_of(number, answer, DEHLBAZIN_READ_NAME_KIND) == DEHLBAZIN_KIND_LINK, "the kind that a name reads");
    check(place_of(number, answer, DEHLBAZIN_READ_NAME_NUMBER) == 1, "the number that a name reads");
    check(place_of(number, answer, DEHLBAZIN_READ_NAME_PLACE) == DEHLBAZIN_PLACE_LOOSE, "where a name's value is found");
    number = dehlbazin_read_name(region.data(), region.size(), 3, answer.data(), answer.size());
    check(place_of(number, answer, DEHLBAZIN_READ_NAME_PLACE) == DEHLBAZIN_PLACE_ABSENT_BEHIND_BROKEN, "that none is found");

    number = dehlbazin_read_line(region.data(), region.size(), 3, 0, answer.data(), answer.size());
    check(place_of(number, answer, DEHLBAZIN_READ_LINE_PREVIOUS) == 0, "the object before");
    check(place_of(number, answer, DEHLBAZIN_READ_LINE_NEW) == 4, "the object after");
    check(place_of(number, answer, DEHLBAZIN_READ_LINE_COMMITTER) == 2, "the committer");
    check(place_of(number, answer, DEHLBAZIN_READ_LINE_MESSAGE) == 1, "the message of a line");
}

static void test_row_places()
{
    Bytes region = encode(prepared()), answer(DEHLBAZIN_ANSWER_SIZE);
    uint32_t number = dehlbazin_read_row(region.data(), region.size(), 1, answer.data(), answer.size());
    check(place_of(number, answer, DEHLBAZIN_READ_ROW_NAME) == 1, "the name of a row");
    check(place_of(number, answer, DEHLBAZIN_READ_ROW_KIND) == DEHLBAZIN_ROW_UPDATE, "the kind of a row");
    check(place_of(number, answer, DEHLBAZIN_READ_ROW_LOG) == DEHLBAZIN_LOG_AND_REFERENCE, "the log of a row");
    check(place_of(number, answer, DEHLBAZIN_READ_ROW_FORCE) == 1, "the force of a row");
    check(place_of(number, answer, DEHLBAZIN_READ_ROW_MESSAGE) == 0x0203, "the message of a row");
    check(place_of(number, answer, DEHLBAZIN_READ_ROW_EXPECTED) == DEHLBAZIN_EXPECTED_MUST_EXIST_AND_MATCH, "expected");
    check(place_of(number, answer, DEHLBAZIN_READ_ROW_EXPECTED_KIND) == DEHLBAZIN_KIND_OBJECT, "the expected kind");
    check(place_of(number, answer, DEHLBAZIN_READ_ROW_EXPECTED_NUMBER) == 7, "the expected number");
    check(place_of(number, answer, DEHLBAZIN_READ_ROW_NEW_KIND) == DEHLBAZIN_KIND_OBJECT, "the new kind");
    check(place_of(number, answer, DEHLBAZIN_READ_ROW_NEW_NUMBER) == 8, "the new number");
    check(place_of(number, answer, DEHLBAZIN_READ_ROW_HAS_PARENT) == 1, "has a parent");
    check(place_of(number, answer, DEHLBAZIN_READ_ROW_PARENT) == 0, "the parent's place");
    check(place_of(number, answer, DEHLBAZIN_READ_ROW_LEAF_PREVIOUS) == 0, "no leaf-previous");
    check(place_of(number, answer, DEHLBAZIN_READ_ROW_FOUND) == DEHLBAZIN_PLACE_LOOSE, "where a row found a loose value");
    number = dehlbazin_read_row(region.data(), region.size(), 0, answer.data(), answer.size());
    check(place_of(number, answer, DEHLBAZIN_READ_ROW_LEAF_PREVIOUS) == 7, "leaf-previous");
    number = dehlbazin_read_row(region.data(), region.size(), 2, answer.data(), answer.size());
    check(place_of(number, answer, DEHLBAZIN_READ_ROW_FOUND) == DEHLBAZIN_PLACE_PACKED, "where a row found a packed value");

    number = dehlbazin_rollback(region.data(), region.size(), answer.data(), answer.size());
    check(place_of(number, answer, DEHLBAZIN_ROLLBACK_ROWS) == 4, "the rows given up");
}

// A list on a store, through the header, with the number that it must give. Leaves the record.
static Bytes prepare_record(Store store, const std::vector<Edit> &edits, uint32_t number)
{
    Bytes region = encode(store), answer(DEHLBAZIN_ANSWER_SIZE);
    const std::string list = write_list(edits);
    const uint8_t *bytes = reinterpret_cast<const uint8_t *>(list.data());
    uint32_t given = dehlbazin_prepare(region.data(), region.size(), bytes, list.size(), DEHLBAZIN_MODE_DELETIONS, answer.data(),
                                       answer.size());
    check(given == number, "prepare gives " + std::to_string(given) + " instead of " + std::to_string(number));
    return answer;
}

// The places of prepare, and of its refusals.
static void test_prepare_places()
{
    Store store = plain(8);
    store.entries[2].name = "refs/heads/4/2";
    store.entries[4].loose = object(44);
    store.entries[5].lock = FOREIGN;
    auto places = [&](const Edit &edit, uint32_t number, const std::vector<std::pair<size_t, uint64_t>> &stated) {
        const Bytes answer = prepare_record(store, {edit}, number);
        for (const auto &[place, value] : stated)
            check(dehlbazin_place(answer.data(), place) == value,
                  "place " + std::to_string(place) + " of " + std::to_string(number));
    };
    places(deleting(4), DEHLBAZIN_DONE, {{DEHLBAZIN_PREPARE_ROWS, 1}});
    places(deleting(5), DEHLBAZIN_LOCK_ACQUIRE, {{DEHLBAZIN_LOCK_ACQUIRE_NAME, 5}});
    places(expecting(deleting(3), MUST_EXIST), DEHLBAZIN_DELETE_REFERENCE_MUST_EXIST,
           {{DEHLBAZIN_DELETE_REFERENCE_MUST_EXIST_NAME, 3}});
    places(expecting(updating(4, link(6)), MUST_NOT_EXIST), DEHLBAZIN_MUST_NOT_EXIST,
           {{DEHLBAZIN_MUST_NOT_EXIST_NAME, 4},
            {DEHLBAZIN_MUST_NOT_EXIST_ACTUAL_KIND, DEHLBAZIN_KIND_OBJECT},
            {DEHLBAZIN_MUST_NOT_EXIST_ACTUAL_NUMBER, 44},
            {DEHLBAZIN_MUST_NOT_EXIST_NEW_KIND, DEHLBAZIN_KIND_LINK},
            {DEHLBAZIN_MUST_NOT_EXIST_NEW_NUMBER, 6}});
    places(expecting(updating(3, object(1)), MUST_EXIST_AND_MATCH, link(7)), DEHLBAZIN_MUST_EXIST,
           {{DEHLBAZIN_MUST_EXIST_NAME, 3},
            {DEHLBAZIN_MUST_EXIST_EXPECTED_KIND, DEHLBAZIN_KIND_LINK},
            {DEHLBAZIN_MUST_EXIST_EXPECTED_NUMBER, 7}});
    places(expecting(deleting(4), MUST_EXIST_AND_MATCH, link(7)), DEHLBAZIN_REFERENCE_OUT_OF_DATE,
           {{DEHLBAZIN_REFERENCE_OUT_OF_DATE_NAME, 4},
            {DEHLBAZIN_REFERENCE_OUT_OF_DATE_EXPECTED_KIND, DEHLBAZIN_KIND_LINK},
            {DEHLBAZIN_REFERENCE_OUT_OF_DATE_EXPECTED_NUMBER, 7},
            {DEHLBAZIN_REFERENCE_OUT_OF_DATE_ACTUAL_KIND, DEHLBAZIN_KIND_OBJECT},
            {DEHLBAZIN_REFERENCE_OUT_OF_DATE_ACTUAL_NUMBER, 44}});
    places(expecting(deleting(6), MUST_NOT_EXIST), DEHLBAZIN_DELETE_MUST_NOT_EXIST, {{DEHLBAZIN_DELETE_MUST_NOT_EXIST_NAME, 6}});
    places(updating(9, object(1)), DEHLBAZIN_NOT_REGISTERED, {{DEHLBAZIN_NOT_REGISTERED_NUMBER, 9}});
    places(deleting(2), DEHLBAZIN_NAME_CONFLICT, {{DEHLBAZIN_NAME_CONFLICT_NAME, 2}});
    const Bytes answer = prepare_record(store, {deleting(6), deleting(6)}, DEHLBAZIN_MULTIPLE_EDITS);
    check(dehlbazin_place(answer.data(), DEHLBAZIN_MULTIPLE_EDITS_NAME) == 6, "place 0 of 6");
}

// The places of commit, and of its stops: the writes made.
static void test_commit_places()
{
    auto makes = [](uint64_t committer, uint64_t allowance, uint32_t number, size_t place, uint64_t writes) {
        Bytes region = encode(prepared()), answer(DEHLBAZIN_ANSWER_SIZE);
        uint32_t given =
            dehlbazin_commit(region.data(), region.size(), committer, allowance, answer.data(), answer.size());
        check(given == number, "commit gives " + std::to_string(given) + " instead of " + std::to_string(number));
        check(dehlbazin_place(answer.data(), place) == writes, "the place of the writes of " + std::to_string(number));
    };
    makes(1, 5, DEHLBAZIN_DONE, DEHLBAZIN_COMMIT_WRITES, 5);
    makes(1, 4, DEHLBAZIN_USED_UP, DEHLBAZIN_USED_UP_WRITES, 4);

    // A write, and then a line.
    Store store = plain(2);
    store.entries[0].name = "refs/tags/0";
    answer_of(store, call::prepare(write_list({updating(0, object(1)), updating(1, object(1))}), 1));
    Bytes region = encode(store), answer(DEHLBAZIN_ANSWER_SIZE);
    uint32_t number = dehlbazin_commit(region.data(), region.size(), 0, ~uint64_t(0), answer.data(), answer.size());
    check(number == DEHLBAZIN_NO_COMMITTER, "commit without a committer gives " + std::to_string(number));
    check(dehlbazin_place(answer.data(), DEHLBAZIN_NO_COMMITTER_WRITES) == 1, "the place of the writes of 16");
}

// A list that C prepares and commits.
static void test_move_from_c()
{
    const std::string list = write_list({through(updating(0, object(7)))});
    Lent region(encode(marked()));
    const uint8_t *bytes = reinterpret_cast<const uint8_t *>(list.data());
    uint64_t writes = 99;
    check(move_from_c(region.data(), region.size(), bytes, list.size(), &writes) == DEHLBAZIN_DONE, "a commit from C");
    check(writes == 3, "the writes of a commit from C");
    Store after = marked();
    after.entries[1].loose = object(7);
    after.lines = {{0, 0, 7, 0x0102, 0}, {1, 0, 7, 0x0102, 0}};
    check(region.holds(encode(after)), "the region after a commit from C");
}

// A list that C builds by the header's constants is the one that our own writer writes.
static void test_list_from_c()
{
    Lent list(DEHLBAZIN_LIST_MOST_BYTES);
    size_t size = list_from_c(list.data());
    Edit first = through(expecting(updating(258, object(0x0102030405060708)), EXISTING_MUST_MATCH, link(0x1112131415161718)));
    first.force = 1;
    first.message = 0x2122;
    const std::string stated = write_list({first, log_only(expecting(deleting(3), MUST_EXIST))});
    check(std::string(list.data(), list.data() + size) == stated, "a list that C builds");
}

// The places of the receiver's calls, and where its count and its bytes stand.
static void test_receiver_places()
{
    const std::string list = write_list({through(updating(0, object(7)))});
    const uint8_t *bytes = reinterpret_cast<const uint8_t *>(list.data());
    Bytes region = encode(marked()), receiver(DEHLBAZIN_RECEIVER_SIZE, 0xEE), answer(DEHLBAZIN_ANSWER_SIZE);
    uint32_t number = dehlbazin_fresh_receiver(receiver.data(), receiver.size(), answer.data(), answer.size());
    check(place_of(number, answer, 0) == 0, "a fresh receiver answers nothing");
    number = dehlbazin_take_fragment(receiver.data(), receiver.size(), bytes, list.size(), answer.data(), answer.size());
    check(place_of(number, answer, DEHLBAZIN_TAKE_FRAGMENT_HELD) == 31, "how many bytes are held");
    check(receiver[DEHLBAZIN_RECEIVER_AT_COUNT] == 0 && receiver[DEHLBAZIN_RECEIVER_AT_COUNT + 1] == 31, "the count");
    check(std::equal(list.begin(), list.end(), reinterpret_cast<char *>(receiver.data()) + DEHLBAZIN_RECEIVER_AT_BYTES),
          "the bytes that are held");
    number = dehlbazin_take_fragment(receiver.data(), receiver.size(), region.data(), 838, answer.data(), answer.size());
    check(number == DEHLBAZIN_RECEIVER_FULL && answer == Bytes(DEHLBAZIN_ANSWER_SIZE, 0), "a fragment that is too long");
    number = dehlbazin_close_receiver(region.data(), region.size(), receiver.data(), receiver.size(), DEHLBAZIN_MODE_DELETIONS,
                                      answer.data(), answer.size());
    check(place_of(number, answer, DEHLBAZIN_CLOSE_RECEIVER_ROWS) == 2, "the rows of a closing");
    number = dehlbazin_rollback(region.data(), region.size(), answer.data(), answer.size());
    check(place_of(number, answer, DEHLBAZIN_ROLLBACK_ROWS) == 2, "the rows given up");
}

// A list that arrives in fragments, from C.
static void test_fragments_from_c()
{
    const std::string list = write_list({through(updating(0, object(7)))});
    const uint8_t *bytes = reinterpret_cast<const uint8_t *>(list.data());
    Lent region(encode(marked()));
    uint64_t rows = 99;
    check(fragments_from_c(region.data(), region.size(), bytes, list.size() - 1, &rows) == DEHLBAZIN_MALFORMED, "a byte too few");
    check(rows == 0 && region.holds(encode(marked())), "nothing is prepared from C");
    check(fragments_from_c(region.data(), region.size(), bytes, list.size(), &rows) == DEHLBAZIN_DONE, "fragments from C");
    Store after = marked();
    answer_of(after, call::prepare(list, 1));
    check(rows == 2 && region.holds(encode(after)), "what is prepared from C");
}

// The places of the calls of the packed table's text, and of its refusals.
static void test_text_places()
{
    const std::string text = texts::text_of_shelves(), wrong = texts::HEADER + "x\n";
    Bytes region = encode(texts::shelves()), answer(DEHLBAZIN_ANSWER_SIZE), buffer(DEHLBAZIN_PACKED_TEXT_MOST_BYTES);
    auto reads = [&](const std::string &lines) {
        const uint8_t *bytes = reinterpret_cast<const uint8_t *>(lines.data());
        return dehlbazin_read_packed(region.data(), region.size(), bytes, lines.size(), answer.data(), answer.size());
    };
    auto writes = [&](size_t room) {
        return dehlbazin_write_packed(region.data(), region.size(), buffer.data(), room, answer.data(), answer.size());
    };
    uint32_t number = writes(buffer.size());
    check(place_of(number, answer, DEHLBAZIN_WRITE_PACKED_LENGTH) == 180, "the length of a text");
    check(writes(179) == DEHLBAZIN_TEXT_TOO_LONG && answer == Bytes(DEHLBAZIN_ANSWER_SIZE, 0), "a text that is too long");
    number = reads(text);
    check(place_of(number, answer, DEHLBAZIN_READ_PACKED_REFS) == 3, "how many refs were read");
    check(reads(wrong) == DEHLBAZIN_MALFORMED_LINE, "a malformed line");
    check(dehlbazin_place(answer.data(), DEHLBAZIN_MALFORMED_LINE_NUMBER) == 2, "the number of a malformed line");
    check(reads(texts::ref(0, "refs/x")) == DEHLBAZIN_BAD_LOAD && answer == Bytes(DEHLBAZIN_ANSWER_SIZE, 0), "object 0");
}

// A backup that C makes of one region, and brings back in another.
static void test_backup_from_c()
{
    Lent from(encode(texts::shelves())), to(encode(Store{})), buffer(200, 0xEE);
    uint32_t number = 99;
    check(backup_from_c(from.data(), to.data(), buffer.data(), 179, &number) == 0, "a buffer that is too short, from C");
    check(number == DEHLBAZIN_TEXT_TOO_LONG && buffer.is_filled(0xEE) && to.holds(encode(Store{})), "it is refused, from C");
    check(backup_from_c(from.data(), to.data(), buffer.data(), buffer.size(), &number) == 3, "three refs from C");
    Store after;
    answer_of(after, call::read_packed(texts::text_of_shelves()));
    check(number == DEHLBAZIN_DONE && to.holds(encode(after)) && from.holds(encode(texts::shelves())), "the regions from C");
}

// The places of the settings record's calls.
static void test_settings_places()
{
    using namespace settings;
    const Bytes record = bytes_of(VERSION_2, Settings{2, 3, 0x0102, {{258, bytes("north")}}});
    Bytes answer(DEHLBAZIN_ANSWER_SIZE), buffer(DEHLBAZIN_SETTINGS_MOST_BYTES);
    uint32_t number = dehlbazin_read_settings(record.data(), record.size(), DEHLBAZIN_SETTINGS_VERSION_2, answer.data(),
                                              answer.size());
    check(place_of(number, answer, DEHLBAZIN_READ_SETTINGS_LOG) == DEHLBAZIN_SETTING_ALWAYS, "the log setting");
    check(place_of(number, answer, DEHLBAZIN_READ_SETTINGS_MODE) == DEHLBAZIN_MODE_UPDATES_REMOVE_LOOSE, "the usual mode");
    check(place_of(number, answer, DEHLBAZIN_READ_SETTINGS_SITE) == 0x0102, "the site");
    check(place_of(number, answer, DEHLBAZIN_READ_SETTINGS_COMMITTERS) == 1, "how many committers");

    number = dehlbazin_read_committer(record.data(), record.size(), DEHLBAZIN_SETTINGS_VERSION_2, 0, answer.data(), answer.size());
    check(place_of(number, answer, DEHLBAZIN_READ_COMMITTER_NUMBER) == 258, "a committer's number");
    check(place_of(number, answer, DEHLBAZIN_READ_COMMITTER_OFFSET) == 17, "the offset of its name");
    check(place_of(number, answer, DEHLBAZIN_READ_COMMITTER_LENGTH) == 5, "the length of its name");

    number = dehlbazin_write_settings(buffer.data(), buffer.size(), DEHLBAZIN_SETTINGS_VERSION_1, DEHLBAZIN_SETTING_NEVER,
                                      DEHLBAZIN_MODE_UPDATES, 0, nullptr, 0, nullptr, 0, nullptr, 0, answer.data(), answer.size());
    check(place_of(number, answer, DEHLBAZIN_WRITE_SETTINGS_LENGTH) == 14, "the length of a record");
}

// The example of docs/SETTINGS.md, written from C; and a store that C starts with it.
static void test_settings_from_c()
{
    Lent buffer(DEHLBAZIN_SETTINGS_MOST_BYTES);
    uint32_t number = 99;
    const size_t size = settings_from_c(buffer.data(), buffer.size(), &number);
    check(number == DEHLBAZIN_DONE, "settings from C");
    check(Bytes(buffer.data(), buffer.data() + std::min(size, buffer.size())) == settings::example(2), "a record that C writes");
    check(settings_from_c(buffer.data(), 42, &number) == 0 && number == DEHLBAZIN_SHORT_BUFFER, "a short buffer from C");

    Lent region(DEHLBAZIN_REGION_SIZE, 0xEE), record(settings::example(2));
    check(site_from_c(region.data(), region.size(), record.data(), record.size(), &number) == 7, "a site that C reads");
    check(number == DEHLBAZIN_DONE && region.holds(encode(Store{1, {}, FREE, {}, 0, {}})), "a store that C starts");
}

void test_header()
{
    test_entries();
    test_settings_places();
    test_settings_from_c();
    test_text_places();
    test_backup_from_c();
    test_place();
    test_layout_version();
    test_name_places();
    test_row_places();
    test_prepare_places();
    test_commit_places();
    test_list_from_c();
    test_move_from_c();
    test_receiver_places();
    test_fragments_from_c();

    Lent region(encode(Store{}));
    uint32_t number = 99;
    check(first_name_from_c(region.data(), region.size(), &number) == 0 && number == DEHLBAZIN_DONE, "a call from C");
    check(first_name_from_c(region.data(), 5, &number) == 0 && number == DEHLBAZIN_BAD_REGION, "a refused call from C");
}
