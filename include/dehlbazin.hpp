// Dehlbazin for C++17: the calls of dehlbazin.h with types. Header only; it needs the archive, dehlbazin.h and the standard
// library.
//
// docs/SPEC.md says what the calls mean, docs/PACKED-TEXT.md what the packed table's text is, docs/SETTINGS.md what the settings
// of a site are, and docs/ABI.md shows whole programs.
//
// Each call gives a Result: its value, or the Refusal with its number and what comes with it. Nothing here throws but value(),
// which throws Refused where there is no value. (Words and texts are std::strings, whose memory can run out.) A commit that stopped
// on its way is no refusal: it is an Outcome, with the number of writes that were made.
//
// A Store keeps no copy of anything: each call reads the region, and tests it whole first. So does a Receiver with its bytes.
//
// What the compiler or this header sees to, beyond what dehlbazin.h says:
//   - the number of a name and the number of an object are two types, and neither is taken for the other. The packed table, which
//     has no number, is a type of its own, so that no lock is placed on it by mistake;
//   - what is lent to a call never overlaps: the bytes of a name, of a fragment, and of a settings record that a store is started
//     with, are copied before they are passed on, and so is a text that lies in the region; lists and answers are objects of their
//     own;
//   - the number of a name is tested before it is put into the 2 bytes that an edit has for it.
// What the caller still must see to:
//   - that the region lives as long as the Store or View over it, and the Store as long as it is used; and so with the bytes of a
//     receiver and the Receiver over them, and with those of a settings record and the SettingsView over them;
//   - that the buffer that Settings are written into lies apart from them, the one that a packed table's text is written into apart
//     from the region, and a receiver's bytes apart from the region that it is closed on;
//   - that one region has one Store at a time, a receiver's bytes one Receiver, and that calls on each come one after the other.
#ifndef DEHLBAZIN_HPP
#define DEHLBAZIN_HPP

#if __cplusplus < 201703L && (!defined(_MSVC_LANG) || _MSVC_LANG < 201703L)
#error "dehlbazin.hpp needs C++17"
#endif

#include "dehlbazin.h"

#include <array>
#include <cstddef>
#include <cstdint>
#include <cstdlib>
#include <cstring>
#include <functional>
#include <initializer_list>
#include <iterator>
#include <optional>
#include <stdexcept>
#include <string>
#include <string_view>
#include <type_traits>
#include <utility>
#include <variant>

namespace dehlbazin {

// ---- numbers, each kind a type of its own

// A number of one kind. It has all 64 bits, so that one that is too large is refused by the call and not shortened before it. In
// braces, as NameNumber{i}, the compiler refuses a negative constant and warns of a signed variable.
template <typename Kind> class Number {
    template <typename Other>
    static constexpr bool is_no_count = std::is_floating_point_v<Other> || std::is_same_v<Other, bool> ||
                                        (std::is_integral_v<Other> && sizeof(Other) > sizeof(uint64_t));

public:
    explicit constexpr Number(uint64_t number) : number_(number) {}
    // Nothing that a conversion would change: no fraction, and nothing wider than 64 bits. And no truth value.
    template <typename Other, typename = std::enable_if_t<is_no_count<Other>>> Number(Other) = delete;

    constexpr uint64_t number() const { return number_; }

    friend constexpr bool operator==(Number x, Number y) { return x.number_ == y.number_; }
    friend constexpr bool operator!=(Number x, Number y) { return x.number_ != y.number_; }
    friend constexpr bool operator<(Number x, Number y) { return x.number_ < y.number_; }

private:
    uint64_t number_;
};

using NameNumber = Number<struct OfName>;     // from 0, in the order in which the names were added
using ObjectNumber = Number<struct OfObject>; // from 1; 0 is the null id, which no call takes for a target
using Committer = Number<struct OfCommitter>; // 1 to 65,535, or nobody
using Message = Number<struct OfMessage>;     // 0 to 65,535
using Allowance = Number<struct OfAllowance>; // how many writes a commit may make
using SiteNumber = Number<struct OfSite>;     // 0 to 65,535

inline constexpr Committer nobody{0};
inline constexpr Allowance every_write{UINT64_MAX};

// ---- what the calls take and give

// A region of the right size. Bytes from elsewhere, as mapped from a file, are passed as a pointer and a size.
using Region = std::array<uint8_t, DEHLBAZIN_REGION_SIZE>;

// The bytes of a receiver, of the right size. Bytes from elsewhere, as from shared memory, are passed as a pointer and a size.
using ReceiverBytes = std::array<uint8_t, DEHLBAZIN_RECEIVER_SIZE>;

// A buffer that no packed table's text is too long for.
using PackedTextBuffer = std::array<uint8_t, DEHLBAZIN_PACKED_TEXT_MOST_BYTES>;

enum class Setting : uint64_t {
    never = DEHLBAZIN_SETTING_NEVER,
    normal = DEHLBAZIN_SETTING_NORMAL,
    always = DEHLBAZIN_SETTING_ALWAYS,
};

enum class Mode : uint64_t {
    deletions = DEHLBAZIN_MODE_DELETIONS,
    updates = DEHLBAZIN_MODE_UPDATES,
    updates_remove_loose = DEHLBAZIN_MODE_UPDATES_REMOVE_LOOSE,
};

// The packed table, as what a lock is placed on. There is one, so it has no number. Its constructor is explicit, so that {} is not
// taken for it.
struct PackedTable {
    explicit constexpr PackedTable() = default;
};
inline constexpr PackedTable packed_table{};

// An object, or a link to a name. Which of the two is said, never guessed from a number.
class Target {
public:
    static constexpr Target object(ObjectNumber object) { return Target(DEHLBAZIN_KIND_OBJECT, object.number()); }
    static constexpr Target link(NameNumber to) { return Target(DEHLBAZIN_KIND_LINK, to.number()); }

    constexpr bool is_link() const { return kind_ == DEHLBAZIN_KIND_LINK; }
    // The object, or none of a link.
    constexpr std::optional<ObjectNumber> object() const
    {
        return is_link() ? std::nullopt : std::optional<ObjectNumber>(ObjectNumber(number_));
    }
    // The name that the link leads to, or none of an object.
    constexpr std::optional<NameNumber> link() const
    {
        return is_link() ? std::optional<NameNumber>(NameNumber(number_)) : std::nullopt;
    }

    // As dehlbazin.h has it: DEHLBAZIN_KIND_.. and the number beside it.
    constexpr uint64_t kind() const { return kind_; }
    constexpr uint64_t number() const { return number_; }

    friend constexpr bool operator==(const Target &x, const Target &y) { return x.kind_ == y.kind_ && x.number_ == y.number_; }
    friend constexpr bool operator!=(const Target &x, const Target &y) { return !(x == y); }

private:
    constexpr Target(uint64_t kind, uint64_t number) : kind_(kind), number_(number) {}

    uint64_t kind_, number_;
};

// What may be loaded as a loose value: a target, none, or broken.
class Loose {
public:
    constexpr Loose(const Target &target) : kind_(target.kind()), number_(target.number()) {}
    static constexpr Loose none() { return Loose(DEHLBAZIN_KIND_NONE); }
    static constexpr Loose broken() { return Loose(DEHLBAZIN_KIND_BROKEN); }

    constexpr uint64_t kind() const { return kind_; }
    constexpr uint64_t number() const { return number_; }

private:
    explicit constexpr Loose(uint64_t kind) : kind_(kind), number_(0) {}

    uint64_t kind_, number_;
};

// Where a value was found, or that none was.
enum class Place : uint8_t {
    loose = DEHLBAZIN_PLACE_LOOSE,
    packed = DEHLBAZIN_PLACE_PACKED,
    packed_behind_broken = DEHLBAZIN_PLACE_PACKED_BEHIND_BROKEN, // the loose value is broken, and an object is packed
    absent = DEHLBAZIN_PLACE_ABSENT,
    absent_behind_broken = DEHLBAZIN_PLACE_ABSENT_BEHIND_BROKEN, // the loose value is broken, and nothing is packed
};

// What a name reads, and where that was found.
struct Found {
    std::optional<Target> target; // none exactly if the place is one of the two that are absent
    Place place;

    friend constexpr bool operator==(const Found &x, const Found &y) { return x.target == y.target && x.place == y.place; }
    friend constexpr bool operator!=(const Found &x, const Found &y) { return !(x == y); }
};

// What an edit expects to find, and what a row found.
class Expected {
public:
    static constexpr Expected any() { return Expected(DEHLBAZIN_EXPECTED_ANY); }
    static constexpr Expected must_exist() { return Expected(DEHLBAZIN_EXPECTED_MUST_EXIST); }
    static constexpr Expected must_not_exist() { return Expected(DEHLBAZIN_EXPECTED_MUST_NOT_EXIST); }
    static constexpr Expected must_exist_and_match(const Target &target)
    {
        return Expected(DEHLBAZIN_EXPECTED_MUST_EXIST_AND_MATCH, target);
    }
    static constexpr Expected existing_must_match(const Target &target)
    {
        return Expected(DEHLBAZIN_EXPECTED_EXISTING_MUST_MATCH, target);
    }

    constexpr uint64_t kind() const { return kind_; } // DEHLBAZIN_EXPECTED_..
    constexpr const std::optional<Target> &target() const { return target_; }

    friend constexpr bool operator==(const Expected &x, const Expected &y)
    {
        return x.kind_ == y.kind_ && x.target_ == y.target_;
    }
    friend constexpr bool operator!=(const Expected &x, const Expected &y) { return !(x == y); }

private:
    friend class View;
    explicit constexpr Expected(uint64_t kind, const std::optional<Target> &target = std::nullopt)
        : kind_(kind), target_(target)
    {
    }

    uint64_t kind_;
    std::optional<Target> target_;
};

// A name with its bytes, which stand in the region itself: they are good until the next start, and as long as the region.
struct Name {
    NameNumber number;
    std::string_view bytes;
};

// A line of a name's log.
struct Line {
    std::optional<ObjectNumber> previous; // none where nothing was there
    ObjectNumber next;
    Committer committer;
    Message message;
};

// A row of the prepared transaction.
struct Row {
    NameNumber name;
    bool is_update, log_only, force;
    Message message;
    Expected expected;
    std::optional<Target> next;     // none of a delete
    std::optional<uint64_t> parent; // the place of the row that it came from, which is an earlier one
    std::optional<ObjectNumber> leaf_previous;
    Place found; // where prepare found the name's value, with packed values seen only if it opened the packed table
};

// How a commit ended that was not refused. Where it was stopped, what it wrote until then stays.
struct Outcome {
    enum class End : uint32_t {
        all_written = DEHLBAZIN_DONE,
        no_committer = DEHLBAZIN_NO_COMMITTER, // stopped before a log line
        used_up = DEHLBAZIN_USED_UP,           // stopped with the allowance used up
    };

    End end;
    uint64_t writes; // how many were made

    bool all_written() const { return end == End::all_written; }
    uint32_t number() const { return uint32_t(end); }
};

// ---- refusals

// Why a call is refused. The two numbers that are missing here, 16 and 17, are those of an Outcome.
enum class Reason : uint32_t {
    bad_region = DEHLBAZIN_BAD_REGION,
    malformed = DEHLBAZIN_MALFORMED,
    not_registered = DEHLBAZIN_NOT_REGISTERED,
    reference_cycle = DEHLBAZIN_REFERENCE_CYCLE,
    too_many_rows = DEHLBAZIN_TOO_MANY_ROWS,
    multiple_edits = DEHLBAZIN_MULTIPLE_EDITS,
    packed_transaction_acquire = DEHLBAZIN_PACKED_TRANSACTION_ACQUIRE,
    lock_acquire = DEHLBAZIN_LOCK_ACQUIRE,
    delete_reference_must_exist = DEHLBAZIN_DELETE_REFERENCE_MUST_EXIST,
    must_not_exist = DEHLBAZIN_MUST_NOT_EXIST,
    must_exist = DEHLBAZIN_MUST_EXIST,
    reference_out_of_date = DEHLBAZIN_REFERENCE_OUT_OF_DATE,
    delete_must_not_exist = DEHLBAZIN_DELETE_MUST_NOT_EXIST,
    log_full = DEHLBAZIN_LOG_FULL,
    wrong_state = DEHLBAZIN_WRONG_STATE,
    bad_name = DEHLBAZIN_BAD_NAME,
    names_full = DEHLBAZIN_NAMES_FULL,
    wrong_lock = DEHLBAZIN_WRONG_LOCK,
    bad_load = DEHLBAZIN_BAD_LOAD,
    nothing_there = DEHLBAZIN_NOTHING_THERE,
    malformed_record = DEHLBAZIN_MALFORMED_RECORD,
    unknown_version = DEHLBAZIN_UNKNOWN_VERSION,
    name_conflict = DEHLBAZIN_NAME_CONFLICT,
    receiver_full = DEHLBAZIN_RECEIVER_FULL,
    malformed_line = DEHLBAZIN_MALFORMED_LINE,
    text_too_long = DEHLBAZIN_TEXT_TOO_LONG,
    short_buffer = DEHLBAZIN_SHORT_BUFFER,
};

namespace detail {

// What a call answered: its number and its record.
struct Answer {
    uint32_t number = 0;
    std::array<uint8_t, DEHLBAZIN_ANSWER_SIZE> record{};

    uint64_t place(size_t i) const { return dehlbazin_place(record.data(), i); }
    // The target in two places, its kind and its number; none where the kind is none.
    std::optional<Target> target(size_t i) const
    {
        if (place(i) == DEHLBAZIN_KIND_OBJECT)
            return Target::object(ObjectNumber(place(i + 1)));
        if (place(i) == DEHLBAZIN_KIND_LINK)
            return Target::link(NameNumber(place(i + 1)));
        return std::nullopt;
    }
    std::optional<ObjectNumber> object(size_t i) const
    {
        return place(i) == 0 ? std::nullopt : std::optional<ObjectNumber>(ObjectNumber(place(i)));
    }
    // Where a value was found, by its number in one place.
    Place found_in(size_t i) const { return Place(place(i)); }
};

// A reason's name, and what it says of the name that comes with it, or of nothing in particular.
struct Word {
    const char *name, *says;
};

inline constexpr Word words[] = {
    {"done", "done"},
    {"bad_region", "the region holds no good store, or the bytes are no good receiver"},
    {"malformed", "the edit list, mode, setting, kind of lock or committer is malformed"},
    {"not_registered", "no name has this number"},
    {"reference_cycle", "links are still followed in a fifth round"},
    {"too_many_rows", "the edits come to more than 160 rows"},
    {"multiple_edits", "two rows have this name"},
    {"packed_transaction_acquire", "the lock of the packed table is foreign"},
    {"lock_acquire", "its lock is foreign, or that of a name that its links lead to"},
    {"delete_reference_must_exist", "to be deleted, but nothing is there"},
    {"must_not_exist", "expected nothing"},
    {"must_exist", "expected"},
    {"reference_out_of_date", "expected"},
    {"delete_must_not_exist", "a delete that expects nothing"},
    {"log_full", "the log has no room for the lines that are due"},
    {"wrong_state", "a transaction is prepared and must not be, or none is and must be"},
    {"no_committer", "a log line has no committer"},
    {"used_up", "the allowance is used up"},
    {"bad_name", "the bytes are no name"},
    {"names_full", "256 names are held"},
    {"wrong_lock", "the lock to be placed is not free, or the lock to be lifted is not foreign"},
    {"bad_load", "this value cannot be loaded there"},
    {"nothing_there", "there is no such log line, row or committer"},
    {"malformed_record", "the settings record is malformed, or a setting is out of bounds"},
    {"unknown_version", "the settings record has a version that is not known"},
    {"name_conflict", "a name above or beneath it has a loose value, or would get one"},
    {"receiver_full", "the fragment is longer than the room that is left in the receiver"},
    {"malformed_line", "this line of the packed table's text is malformed"},
};

inline constexpr Word text_too_long = {"text_too_long", "the buffer is shorter than the packed table's text"};
inline constexpr Word short_buffer = {"short_buffer", "the buffer is shorter than the settings record"};
inline constexpr Word unknown = {"unknown", "a number that this header does not know"};

// The numbers between the last of these words and those of a buffer that is too short are given by no call.
inline const Word &word_of(uint32_t number)
{
    if (number == DEHLBAZIN_TEXT_TOO_LONG)
        return text_too_long;
    if (number == DEHLBAZIN_SHORT_BUFFER)
        return short_buffer;
    return number < std::size(words) ? words[number] : unknown;
}

inline const char *words_of(Place place)
{
    switch (place) {
    case Place::loose:
        return "loose";
    case Place::packed:
        return "packed";
    case Place::packed_behind_broken:
        return "packed behind a broken loose";
    case Place::absent:
        return "absent";
    case Place::absent_behind_broken:
        return "absent behind a broken loose";
    }
    return "in a place that this header does not know";
}

} // namespace detail

// A refusal: its reason, and what comes with it. The region is as it was, and so is a receiver, but for one that was closed.
class Refusal {
public:
    explicit Refusal(Reason reason) { answer_.number = uint32_t(reason); }
    // The refusal of a number that is no name's.
    explicit Refusal(NameNumber name) : Refusal(Reason::not_registered)
    {
        for (size_t i = 0; i < 8; i++)
            answer_.record[8 * DEHLBAZIN_NOT_REGISTERED_NUMBER + i] = uint8_t(name.number() >> (56 - 8 * i));
    }
    explicit Refusal(const detail::Answer &answer) : answer_(answer) {}

    Reason reason() const { return Reason(answer_.number); }
    uint32_t number() const { return answer_.number; }
    const char *reason_name() const { return detail::word_of(answer_.number).name; }

    // The name that it is about: of 3 the number that is no name's, of 8 the name of the edit that led to the lock, of 25 the name
    // that the edit led to. None where a refusal is about no name.
    std::optional<NameNumber> name() const
    {
        switch (reason()) {
        case Reason::not_registered:
        case Reason::multiple_edits:
        case Reason::lock_acquire:
        case Reason::delete_reference_must_exist:
        case Reason::must_not_exist:
        case Reason::must_exist:
        case Reason::reference_out_of_date:
        case Reason::delete_must_not_exist:
        case Reason::name_conflict:
            return NameNumber(place(0));
        default:
            return std::nullopt;
        }
    }

    // What was expected, of 11 and 12. None where it was nothing (10) or any value (11, which has object 0 then).
    std::optional<Target> expected() const
    {
        if (reason() == Reason::reference_out_of_date)
            return answer_.target(DEHLBAZIN_REFERENCE_OUT_OF_DATE_EXPECTED_KIND);
        if (reason() != Reason::must_exist)
            return std::nullopt;
        const std::optional<Target> expected = answer_.target(DEHLBAZIN_MUST_EXIST_EXPECTED_KIND);
        return expected == Target::object(ObjectNumber(0)) ? std::nullopt : expected;
    }

    // What is there, of 10 and 12.
    std::optional<Target> actual() const
    {
        if (reason() == Reason::must_not_exist)
            return answer_.target(DEHLBAZIN_MUST_NOT_EXIST_ACTUAL_KIND);
        if (reason() == Reason::reference_out_of_date)
            return answer_.target(DEHLBAZIN_REFERENCE_OUT_OF_DATE_ACTUAL_KIND);
        return std::nullopt;
    }

    // What the update would write, of 10.
    std::optional<Target> next() const
    {
        return reason() == Reason::must_not_exist ? answer_.target(DEHLBAZIN_MUST_NOT_EXIST_NEW_KIND) : std::nullopt;
    }

    // The line of a text that is malformed, of 27: from 1, with comments and peeled lines counted.
    std::optional<uint64_t> line_number() const
    {
        if (reason() != Reason::malformed_line)
            return std::nullopt;
        return place(DEHLBAZIN_MALFORMED_LINE_NUMBER);
    }

    // As dehlbazin.h has it: place i of the answer record.
    uint64_t place(size_t i) const { return answer_.place(i); }

private:
    detail::Answer answer_;
};

std::string to_string(const Refusal &refusal);

// What value() throws where there is no value.
class Refused : public std::runtime_error {
public:
    explicit Refused(const Refusal &refusal)
        : std::runtime_error("refused with number " + std::to_string(refusal.number()) + ": " + to_string(refusal)),
          refusal_(refusal)
    {
    }
    const Refusal &refusal() const { return refusal_; }

private:
    Refusal refusal_;
};

// ---- results

// What a call gives that has nothing to give.
struct Done {};

// A value or a refusal.
template <typename Value> class [[nodiscard]] Result {
public:
    Result(Value value) : held_(std::move(value)) {}
    Result(const Refusal &refusal) : held_(refusal) {}

    bool done() const { return held_.index() == 0; }
    explicit operator bool() const { return done(); }
    uint32_t number() const { return done() ? uint32_t(DEHLBAZIN_DONE) : refusal()->number(); }

    // The one or the other, null where it is not that.
    Value *get() { return std::get_if<0>(&held_); }
    const Value *get() const { return std::get_if<0>(&held_); }
    const Refusal *refusal() const { return std::get_if<1>(&held_); }

    // The value. Throws Refused where there is none; where exceptions are turned off, it ends the program.
    Value &value() & { return checked(), *get(); }
    const Value &value() const & { return checked(), *get(); }
    Value value() && { return checked(), std::move(*get()); }

private:
    void checked() const
    {
        if (done())
            return;
#if defined(__cpp_exceptions) || defined(_CPPUNWIND)
        throw Refused(*refusal());
#else
        std::abort();
#endif
    }

    std::variant<Value, Refusal> held_;
};

// ---- edits

// An edit of a name, made as an Update or a Delete.
class Edit {
public:
    NameNumber name() const { return name_; }
    Message message() const { return message_; }

    // Its record in an edit list, of DEHLBAZIN_LIST_EDIT_SIZE bytes that are 0. The name and the message fit in 2 bytes.
    void write(uint8_t *record) const
    {
        record[DEHLBAZIN_EDIT_AT_KIND] = next_ ? DEHLBAZIN_ROW_UPDATE : DEHLBAZIN_ROW_DELETE;
        record[DEHLBAZIN_EDIT_AT_DEREF] = deref_;
        record[DEHLBAZIN_EDIT_AT_LOG] = log_only_ ? DEHLBAZIN_LOG_ONLY : DEHLBAZIN_LOG_AND_REFERENCE;
        record[DEHLBAZIN_EDIT_AT_FORCE] = force_;
        record[DEHLBAZIN_EDIT_AT_EXPECTED] = uint8_t(expected_.kind());
        put(record + DEHLBAZIN_EDIT_AT_EXPECTED_KIND, expected_.target());
        put(record + DEHLBAZIN_EDIT_AT_NEW_KIND, next_);
        put(record + DEHLBAZIN_EDIT_AT_NAME, name_.number(), 2);
        put(record + DEHLBAZIN_EDIT_AT_MESSAGE, message_.number(), 2);
    }

protected:
    Edit(NameNumber name, const std::optional<Target> &next) : name_(name), next_(next) {}

    NameNumber name_;
    std::optional<Target> next_; // none of a delete
    Expected expected_ = Expected::any();
    Message message_{0};
    bool deref_ = false, log_only_ = false, force_ = false;

private:
    static void put(uint8_t *at, uint64_t number, size_t bytes)
    {
        for (; bytes > 0; number >>= 8)
            at[--bytes] = uint8_t(number);
    }
    // A kind and a number; both are 0 already where there is no target.
    static void put(uint8_t *at, const std::optional<Target> &target)
    {
        if (!target)
            return;
        at[0] = uint8_t(target->kind());
        put(at + 1, target->number(), 8);
    }
};

namespace detail {

// What both kinds of edits can be told. Each gives the edit anew, so that an edit is written down as one expression.
template <typename Self> class Editing : public Edit {
public:
    // Through the name's links: the edit is of the name that they lead to, and each on the way gets a log line.
    Self deref() const
    {
        return with([](Self &edit) { edit.deref_ = true; });
    }
    // The log alone, and not the reference.
    Self log_only() const
    {
        return with([](Self &edit) { edit.log_only_ = true; });
    }
    Self expecting(const Expected &expected) const
    {
        return with([&](Self &edit) { edit.expected_ = expected; });
    }

protected:
    using Edit::Edit;
    template <typename Change> Self with(Change change) const
    {
        Self edit = static_cast<const Self &>(*this);
        change(edit);
        return edit;
    }
};

} // namespace detail

class Update : public detail::Editing<Update> {
public:
    Update(NameNumber name, const Target &next) : Editing(name, next) {}

    // A log line for any name, unless the setting is never.
    Update force() const
    {
        return with([](Update &edit) { edit.force_ = true; });
    }
    Update message(Message message) const
    {
        return with([=](Update &edit) { edit.message_ = message; });
    }
};

class Delete : public detail::Editing<Delete> {
public:
    explicit Delete(NameNumber name) : Editing(name, std::nullopt) {}
};

// The edits of a transaction, at most 32, and the bytes that stand for them.
class EditList {
public:
    EditList()
    {
        bytes_[DEHLBAZIN_LIST_AT_VERSION] = DEHLBAZIN_LIST_VERSION;
        count_to(0);
    }

    // The list of these edits, or why one of them cannot be added.
    static Result<EditList> of(std::initializer_list<Edit> edits)
    {
        EditList list;
        for (const Edit &edit : edits)
            if (Result<Done> added = list.add(edit); !added)
                return *added.refusal();
        return list;
    }

    // Adds an edit. What the bytes of a list cannot hold is refused here, with the number that prepare would give, and the list
    // stays as it was: 2 for a 33rd edit or a message above 65,535, 3 for a number above 65,535, which is no name's.
    Result<Done> add(const Edit &edit)
    {
        if (count() == DEHLBAZIN_LIST_MOST_EDITS || edit.message().number() > UINT16_MAX)
            return Refusal(Reason::malformed);
        if (edit.name().number() > UINT16_MAX)
            return Refusal(edit.name());
        edit.write(bytes_.data() + size());
        count_to(count() + 1);
        return Done();
    }

    size_t count() const { return bytes_[DEHLBAZIN_LIST_AT_COUNT]; }
    const uint8_t *data() const { return bytes_.data(); }
    size_t size() const { return DEHLBAZIN_LIST_HEADER_SIZE + DEHLBAZIN_LIST_EDIT_SIZE * count(); }

private:
    void count_to(size_t count)
    {
        bytes_[DEHLBAZIN_LIST_AT_COUNT] = uint8_t(count);
        const size_t follow = size() - DEHLBAZIN_LIST_AT_COUNT;
        bytes_[DEHLBAZIN_LIST_AT_LENGTH] = uint8_t(follow >> 8);
        bytes_[DEHLBAZIN_LIST_AT_LENGTH + 1] = uint8_t(follow);
    }

    std::array<uint8_t, DEHLBAZIN_LIST_MOST_BYTES> bytes_{};
};

// ---- walks

// What stands at place 0, 1, 2 and so on, until there is no more: for range-for, once. Each is read when the walk comes to it.
template <typename Read> class Walk {
public:
    using Item = typename Read::Item;

    class Iterator {
    public:
        using iterator_category = std::input_iterator_tag;
        using value_type = Item;
        using difference_type = std::ptrdiff_t;
        using pointer = const Item *;
        using reference = const Item &;

        explicit Iterator(Walk *walk) : walk_(walk) {}
        reference operator*() const { return *walk_->item_; }
        pointer operator->() const { return &*walk_->item_; }
        Iterator &operator++()
        {
            walk_ = walk_->step() ? walk_ : nullptr;
            return *this;
        }
        void operator++(int) { ++*this; }
        friend bool operator==(Iterator x, Iterator y) { return x.walk_ == y.walk_; }
        friend bool operator!=(Iterator x, Iterator y) { return x.walk_ != y.walk_; }

    private:
        Walk *walk_; // null at the end
    };

    explicit Walk(Read read) : read_(read) {}
    Iterator begin()
    {
        place_ = 0;
        refusal_.reset();
        return Iterator(step() ? this : nullptr);
    }
    Iterator end() { return Iterator(nullptr); }

    // Why the walk ended before all was seen; null where it came to its end, or was left.
    const Refusal *refusal() const { return refusal_ ? &*refusal_ : nullptr; }

private:
    bool step()
    {
        Result<Item> next = read_(place_++);
        item_.reset();
        if (next)
            item_ = *next.get();
        else if (next.refusal()->reason() != Read::end)
            refusal_ = *next.refusal();
        return bool(item_);
    }

    Read read_;
    uint64_t place_ = 0;
    std::optional<Item> item_;
    std::optional<Refusal> refusal_;
};

namespace detail {

struct ReadNames;
struct ReadLines;
struct ReadRows;
struct ReadCommitters;

// Makes a call: the region, or what else it takes first, the call's own arguments, and a record for the answer.
template <typename Entry, typename Byte, typename... Arguments>
Answer ask(Entry entry, Byte *region, size_t size, Arguments... arguments)
{
    Answer answer;
    answer.number = entry(region, size, arguments..., answer.record.data(), answer.record.size());
    return answer;
}

// What a call gives when it is done, or its refusal.
template <typename Make> auto given(const Answer &answer, Make make) -> Result<decltype(make(answer))>
{
    if (answer.number != DEHLBAZIN_DONE)
        return Refusal(answer);
    return make(answer);
}

inline Result<Done> given(const Answer &answer)
{
    return given(answer, [](const Answer &) { return Done(); });
}

// A range of bytes that stand one after the other.
template <typename Bytes>
using IfBytes =
    std::enable_if_t<std::is_convertible_v<decltype(std::data(std::declval<const Bytes &>())), const uint8_t *>,
                     decltype(std::begin(std::declval<const Bytes &>()))>;

} // namespace detail

// ---- the settings of a site

// The version of a settings record, or the latest that a reader knows. One that knows the second knows the first too.
enum class SettingsVersion : uint64_t {
    first = DEHLBAZIN_SETTINGS_VERSION_1,  // has no place for a site: it is written for site 0 alone, and reads as site 0
    second = DEHLBAZIN_SETTINGS_VERSION_2, // has one
};

// A buffer that no record is too long for.
using SettingsBuffer = std::array<uint8_t, DEHLBAZIN_SETTINGS_MOST_BYTES>;

// A committer of a site. The bytes of its name, which may be any, stand in the record or in the Settings that it was read of.
struct SiteCommitter {
    Committer number;
    std::string_view name;
};

// A settings record that is read where it stands: in bytes that stay as they are as long as this is used. It copies none of them.
class SettingsView {
public:
    // Refused with 24 where the record has a version that is not known, with 23 where it is malformed.
    static Result<SettingsView> open(const uint8_t *record, size_t size, SettingsVersion known)
    {
        size = record ? size : 0; // null is no record, whatever size is said to be there
        return detail::given(detail::ask(dehlbazin_read_settings, record, size, uint64_t(known)),
                             [=](const detail::Answer &answer) { return SettingsView(record, size, known, answer); });
    }

    Setting log() const { return log_; }
    Mode mode() const { return mode_; }
    SiteNumber site() const { return site_; }
    uint64_t committer_count() const { return committers_; }

    // The committer at a place, from 0, by rising number. Refused with 22 where there is none.
    Result<SiteCommitter> committer(uint64_t place) const
    {
        const detail::Answer given = detail::ask(dehlbazin_read_committer, record_, size_, uint64_t(known_), place);
        return detail::given(given, [this](const detail::Answer &answer) {
            const char *name = reinterpret_cast<const char *>(record_ + answer.place(DEHLBAZIN_READ_COMMITTER_OFFSET));
            return SiteCommitter{Committer(answer.place(DEHLBAZIN_READ_COMMITTER_NUMBER)),
                                 std::string_view(name, answer.place(DEHLBAZIN_READ_COMMITTER_LENGTH))};
        });
    }
    // for (const SiteCommitter &committer : view.committers())
    Walk<detail::ReadCommitters> committers() const;

private:
    SettingsView(const uint8_t *record, size_t size, SettingsVersion known, const detail::Answer &answer)
        : record_(record), size_(size), known_(known), log_(Setting(answer.place(DEHLBAZIN_READ_SETTINGS_LOG))),
          mode_(Mode(answer.place(DEHLBAZIN_READ_SETTINGS_MODE))), site_(answer.place(DEHLBAZIN_READ_SETTINGS_SITE)),
          committers_(answer.place(DEHLBAZIN_READ_SETTINGS_COMMITTERS))
    {
    }

    const uint8_t *record_;
    size_t size_;
    SettingsVersion known_;
    Setting log_;
    Mode mode_;
    SiteNumber site_;
    uint64_t committers_;
};

namespace detail {

struct ReadCommitters {
    using Item = SiteCommitter;
    static constexpr Reason end = Reason::nothing_there;
    SettingsView view;

    Result<SiteCommitter> operator()(uint64_t place) const { return view.committer(place); }
};

} // namespace detail

inline Walk<detail::ReadCommitters> SettingsView::committers() const { return Walk(detail::ReadCommitters{*this}); }

// What a site keeps between runs. It is written as a record and read from one.
class Settings {
public:
    Settings(Setting log, Mode mode, SiteNumber site = SiteNumber{0}) : log_(log), mode_(mode), site_(site) {}

    // Reads a record, and copies it. Refused with 24 where it has a version that is not known, with 23 where it is malformed.
    static Result<Settings> read(const uint8_t *record, size_t size, SettingsVersion known)
    {
        const Result<SettingsView> view = SettingsView::open(record, size, known);
        if (!view)
            return *view.refusal();
        Settings settings(view.get()->log(), view.get()->mode(), view.get()->site());
        auto committers = view.get()->committers();
        for (const SiteCommitter &committer : committers)
            if (const Result<Done> added = settings.add_committer(committer.number, committer.name); !added)
                return *added.refusal();
        if (committers.refusal())
            return *committers.refusal();
        return settings;
    }

    // Adds a committer with its name, which is copied. What this cannot hold is refused here, with the number that write would
    // give, and the settings stay as they were: 23 for a 17th committer or a name of more than 32 bytes. All else is write's to
    // refuse.
    Result<Done> add_committer(Committer number, std::string_view name)
    {
        if (count_ == DEHLBAZIN_SETTINGS_MOST_COMMITTERS || name.size() > DEHLBAZIN_SETTINGS_MOST_NAME_BYTES)
            return Refusal(Reason::malformed_record);
        if (!name.empty())
            std::memmove(names_.data() + used_, name.data(), name.size());
        numbers_[count_] = number.number();
        lengths_[count_] = name.size();
        used_ += name.size();
        count_++;
        return Done();
    }

    Setting log() const { return log_; }
    Mode mode() const { return mode_; }
    SiteNumber site() const { return site_; }
    size_t committer_count() const { return count_; }

    // The committer at a place, from 0, in the order in which they were added. Refused with 22 where there is none.
    Result<SiteCommitter> committer(uint64_t place) const
    {
        if (place >= count_)
            return Refusal(Reason::nothing_there);
        size_t at = 0;
        for (uint64_t i = 0; i < place; i++)
            at += size_t(lengths_[i]);
        const char *name = reinterpret_cast<const char *>(names_.data() + at);
        return SiteCommitter{Committer(numbers_[place]), std::string_view(name, size_t(lengths_[place]))};
    }

    // Writes the record at the beginning of a buffer, and gives its length. Bytes past it stay as they are; on a refusal all do.
    // Refused with 24 for a wrong version; with 23 for settings that are out of bounds, for committers whose numbers do not rise,
    // and for a site other than 0 in the first version; with 33 where the buffer is too short.
    Result<size_t> write(SettingsBuffer &buffer, SettingsVersion version) const
    {
        return write(buffer.data(), buffer.size(), version);
    }
    Result<size_t> write(uint8_t *buffer, size_t size, SettingsVersion version) const
    {
        const uint8_t *names = names_.data();
        const detail::Answer given =
            detail::ask(dehlbazin_write_settings, buffer, buffer ? size : 0, uint64_t(version), uint64_t(log_), uint64_t(mode_),
                        site_.number(), numbers_.data(), count_, lengths_.data(), count_, names, used_);
        return detail::given(given, [](const detail::Answer &answer) {
            return size_t(answer.place(DEHLBAZIN_WRITE_SETTINGS_LENGTH));
        });
    }

private:
    Setting log_;
    Mode mode_;
    SiteNumber site_;
    size_t count_ = 0, used_ = 0; // how many committers, and how many bytes of names
    std::array<uint64_t, DEHLBAZIN_SETTINGS_MOST_COMMITTERS> numbers_{}, lengths_{};
    std::array<uint8_t, DEHLBAZIN_SETTINGS_MOST_COMMITTERS * DEHLBAZIN_SETTINGS_MOST_NAME_BYTES> names_{};
};

// ---- a store that is read

// A good region, to be read. It changes nothing, and the bytes may be in memory that can only be read.
class View {
public:
    static Result<View> open(const Region &region) { return open(region.data(), region.size()); }
    // Refused with 1 where the size is another than DEHLBAZIN_REGION_SIZE, or the bytes are no good store.
    static Result<View> open(const uint8_t *region, size_t size)
    {
        View view(region, size);
        if (view.ask(dehlbazin_read_row, uint64_t(0)).number == DEHLBAZIN_BAD_REGION) // a good one gives 0 or 22
            return Refusal(Reason::bad_region);
        return view;
    }

    // The bytes of a name, where they stand in the region.
    Result<std::string_view> name_bytes(NameNumber name) const
    {
        return detail::given(ask(dehlbazin_name_bytes, name.number()), [this](const detail::Answer &answer) {
            const char *bytes = reinterpret_cast<const char *>(region_ + answer.place(DEHLBAZIN_NAME_BYTES_OFFSET));
            return std::string_view(bytes, answer.place(DEHLBAZIN_NAME_BYTES_LENGTH));
        });
    }

    // What a name reads, and where that was found. Packed values are always seen.
    Result<Found> read_name(NameNumber name) const
    {
        return detail::given(ask(dehlbazin_read_name, name.number()), [](const detail::Answer &answer) {
            return Found{answer.target(DEHLBAZIN_READ_NAME_KIND), answer.found_in(DEHLBAZIN_READ_NAME_PLACE)};
        });
    }

    // A line of a name's log, the oldest at place 0.
    Result<Line> read_line(NameNumber name, uint64_t place) const
    {
        return detail::given(ask(dehlbazin_read_line, name.number(), place), [](const detail::Answer &answer) {
            return Line{answer.object(DEHLBAZIN_READ_LINE_PREVIOUS), ObjectNumber(answer.place(DEHLBAZIN_READ_LINE_NEW)),
                        Committer(answer.place(DEHLBAZIN_READ_LINE_COMMITTER)),
                        Message(answer.place(DEHLBAZIN_READ_LINE_MESSAGE))};
        });
    }

    // A row of the prepared transaction.
    Result<Row> read_row(uint64_t place) const { return detail::given(ask(dehlbazin_read_row, place), row_of); }

    // Writes the packed table as text at the beginning of a buffer, and gives its length: a line for each name that has a packed
    // value, in byte order of the names. A transaction may be prepared. Bytes past the text stay as they are; on a refusal all do.
    // Refused with 32 where the buffer is too short.
    Result<size_t> write_packed(PackedTextBuffer &buffer) const { return write_packed(buffer.data(), buffer.size()); }
    Result<size_t> write_packed(uint8_t *buffer, size_t size) const
    {
        return detail::given(ask(dehlbazin_write_packed, buffer, buffer ? size : 0), [](const detail::Answer &answer) {
            return size_t(answer.place(DEHLBAZIN_WRITE_PACKED_LENGTH));
        });
    }
    // The whole text, which has room here whatever its length.
    Result<std::string> packed_text() const
    {
        PackedTextBuffer buffer;
        const Result<size_t> length = write_packed(buffer);
        if (!length)
            return *length.refusal();
        return std::string(reinterpret_cast<const char *>(buffer.data()), *length.get());
    }

    // for (const Name &name : store.names()), in the order in which they were added.
    Walk<detail::ReadNames> names() const;
    // for (const Line &line : store.lines(name)), the oldest first. The walk is refused with 3 where there is no such name.
    Walk<detail::ReadLines> lines(NameNumber name) const;
    // for (const Row &row : store.rows()), of the prepared transaction; none where none is prepared.
    Walk<detail::ReadRows> rows() const;

protected:
    // Null is no region, whatever size is said to be there.
    View(const uint8_t *region, size_t size) : region_(region), size_(region ? size : 0) {}

    template <typename Entry, typename... Arguments> detail::Answer ask(Entry entry, Arguments... arguments) const
    {
        return detail::ask(entry, region_, size_, arguments...);
    }

    const uint8_t *region_;
    size_t size_;

private:
    static Row row_of(const detail::Answer &answer)
    {
        std::optional<uint64_t> parent;
        if (answer.place(DEHLBAZIN_READ_ROW_HAS_PARENT) != 0)
            parent = answer.place(DEHLBAZIN_READ_ROW_PARENT);
        return Row{NameNumber(answer.place(DEHLBAZIN_READ_ROW_NAME)),
                   answer.place(DEHLBAZIN_READ_ROW_KIND) == DEHLBAZIN_ROW_UPDATE,
                   answer.place(DEHLBAZIN_READ_ROW_LOG) == DEHLBAZIN_LOG_ONLY,
                   answer.place(DEHLBAZIN_READ_ROW_FORCE) != 0,
                   Message(answer.place(DEHLBAZIN_READ_ROW_MESSAGE)),
                   Expected(answer.place(DEHLBAZIN_READ_ROW_EXPECTED), answer.target(DEHLBAZIN_READ_ROW_EXPECTED_KIND)),
                   answer.target(DEHLBAZIN_READ_ROW_NEW_KIND),
                   parent,
                   answer.object(DEHLBAZIN_READ_ROW_LEAF_PREVIOUS),
                   answer.found_in(DEHLBAZIN_READ_ROW_FOUND)};
    }
};

namespace detail {

struct ReadNames {
    using Item = Name;
    static constexpr Reason end = Reason::not_registered;
    View view;

    Result<Name> operator()(uint64_t place) const
    {
        const Result<std::string_view> bytes = view.name_bytes(NameNumber(place));
        if (!bytes)
            return *bytes.refusal();
        return Name{NameNumber(place), *bytes.get()};
    }
};

struct ReadLines {
    using Item = Line;
    static constexpr Reason end = Reason::nothing_there;
    View view;
    NameNumber name;

    Result<Line> operator()(uint64_t place) const { return view.read_line(name, place); }
};

struct ReadRows {
    using Item = Row;
    static constexpr Reason end = Reason::nothing_there;
    View view;

    Result<Row> operator()(uint64_t place) const { return view.read_row(place); }
};

} // namespace detail

inline Walk<detail::ReadNames> View::names() const { return Walk(detail::ReadNames{*this}); }
inline Walk<detail::ReadLines> View::lines(NameNumber name) const { return Walk(detail::ReadLines{*this, name}); }
inline Walk<detail::ReadRows> View::rows() const { return Walk(detail::ReadRows{*this}); }

// ---- a store, and its transaction

class Store;

// A prepared transaction. It rolls back when it goes out of scope, unless it was committed or is over for another reason: rolled
// back, or its store started anew or gone. It ends no transaction but its own.
class [[nodiscard]] Transaction {
public:
    Transaction(Transaction &&other) noexcept { take(other); }
    Transaction &operator=(Transaction &&other) noexcept
    {
        if (this != &other) {
            give_up();
            take(other);
        }
        return *this;
    }
    ~Transaction() { give_up(); }

    bool prepared() const { return store_ != nullptr; }
    uint64_t row_count() const { return rows_; } // how many rows prepare made

    // Commits it, and it is over, stopped or not. Refused with 15 where it is over; with 2 for a committer above 65,535, and it
    // stays prepared.
    Result<Outcome> commit(Committer committer, Allowance allowance = every_write);
    // Gives the number of rows that are given up, 0 where it is over.
    Result<uint64_t> rollback();

private:
    friend class Store;
    Transaction(Store &store, uint64_t rows);
    void take(Transaction &other) noexcept;
    void give_up() noexcept;

    Store *store_ = nullptr; // null where it is over
    uint64_t rows_ = 0;
};

// A region that is lent for as long as the store lives.
class Store : public View {
public:
    // Makes an empty store, whatever the bytes were. Refused with 1 for a wrong size, with 2 for a wrong setting.
    static Result<Store> start(Region &region, Setting setting) { return start(region.data(), region.size(), setting); }
    static Result<Store> start(uint8_t *region, size_t size, Setting setting)
    {
        Store store(region, size);
        const Result<Done> started = store.restart(setting);
        return started ? Result<Store>(std::move(store)) : Result<Store>(*started.refusal());
    }

    // Makes an empty store with the log setting of a settings record, of either version. Refused with 1 for a wrong size, with 24
    // and 23 as reading the record is.
    static Result<Store> start_with_settings(Region &region, const uint8_t *record, size_t record_size)
    {
        return start_with_settings(region.data(), region.size(), record, record_size);
    }
    static Result<Store> start_with_settings(uint8_t *region, size_t size, const uint8_t *record, size_t record_size)
    {
        Store store(region, size);
        const Result<Done> started = store.restart_with_settings(record, record_size);
        return started ? Result<Store>(std::move(store)) : Result<Store>(*started.refusal());
    }

    // Takes up the store that stands there. Refused with 1 where the size is wrong, or the bytes are no good store. A transaction
    // that was left prepared stays so: commit or rollback end it.
    static Result<Store> open(Region &region) { return open(region.data(), region.size()); }
    static Result<Store> open(uint8_t *region, size_t size)
    {
        const Result<View> view = View::open(region, size);
        return view ? Result<Store>(Store(region, size)) : Result<Store>(*view.refusal());
    }

    Store(Store &&other) noexcept : View(other), bytes_(other.bytes_) { take(other); }
    Store &operator=(Store &&other) noexcept
    {
        if (this != &other) {
            drop();
            View::operator=(other);
            bytes_ = other.bytes_;
            take(other);
        }
        return *this;
    }
    ~Store() { drop(); }

    // Makes it empty, with a log setting. What was there is gone, a prepared transaction too.
    Result<Done> restart(Setting setting)
    {
        Result<Done> started = detail::given(change(dehlbazin_start, uint64_t(setting)));
        if (started)
            transaction_over();
        return started;
    }

    // The same with the log setting of a settings record. The record may be anywhere, in the region too: it is copied. It has at
    // most 579 bytes, so that of more no more than 580 are needed to be refused.
    Result<Done> restart_with_settings(const uint8_t *record, size_t size)
    {
        std::array<uint8_t, DEHLBAZIN_SETTINGS_MOST_BYTES + 1> copy;
        const size_t length = !record ? 0 : size < copy.size() ? size : copy.size();
        if (length > 0)
            std::memcpy(copy.data(), record, length);
        Result<Done> started =
            detail::given(change(dehlbazin_start_with_settings, static_cast<const uint8_t *>(copy.data()), length));
        if (started)
            transaction_over();
        return started;
    }

    // The number of a name, which is added where it is new. The bytes may be anywhere, in the region too: they are copied. A name
    // has at most 64, so that of more no more than 65 are needed to be refused.
    Result<NameNumber> add_name(std::string_view name)
    {
        std::array<uint8_t, MOST_NAME_BYTES + 1> copy;
        const size_t length = name.size() < copy.size() ? name.size() : copy.size();
        if (length > 0)
            std::memcpy(copy.data(), name.data(), length);
        return detail::given(change(dehlbazin_add_name, static_cast<const uint8_t *>(copy.data()), length),
                             [](const detail::Answer &answer) { return NameNumber(answer.place(DEHLBAZIN_ADD_NAME_NUMBER)); });
    }

    // Refused with 21 for object 0, and for a value where a name above or beneath has a loose one: where one of the two begins with
    // the other and a '/'.
    Result<Done> load_loose(NameNumber name, const Loose &value)
    {
        return detail::given(change(dehlbazin_load_loose, name.number(), value.kind(), value.number()));
    }
    Result<Done> load_packed(NameNumber name, const std::optional<ObjectNumber> &object)
    {
        const uint64_t kind = object ? DEHLBAZIN_KIND_OBJECT : DEHLBAZIN_KIND_NONE;
        return detail::given(change(dehlbazin_load_packed, name.number(), kind, object ? object->number() : 0));
    }

    // Reads a text, puts what it says in the place of the whole packed table, and gives how many refs it has. A name that it does
    // not have has no packed value then, and one that is new is added. Loose values, locks and logs stay. A text of no bytes is an
    // empty table. Refused with 15 while a transaction is prepared; then the first line at fault decides: 27 it is malformed, which
    // comes with its number; 21 object 0, or a name that is not packable; 19 a new name, and 256 are held. A text that is refused
    // changes nothing. The bytes may be anywhere; where they lie in the region, they are copied.
    Result<uint64_t> read_packed(const uint8_t *text, size_t size)
    {
        if (!text && size > 0) // no text, and no empty table either: as a byte that is no line, it is refused in its turn
            return read_packed(&no_line, 1);
        if (!overlaps(text, size))
            return refs_of(change(dehlbazin_read_packed, text, size));
        const std::string copy(reinterpret_cast<const char *>(text), size);
        return refs_of(change(dehlbazin_read_packed, reinterpret_cast<const uint8_t *>(copy.data()), copy.size()));
    }
    Result<uint64_t> read_packed(std::string_view text)
    {
        return read_packed(reinterpret_cast<const uint8_t *>(text.data()), text.size());
    }
    // Bytes that know how many they are: an array, a std::array, a std::vector, and in C++20 a std::span.
    template <typename Bytes, typename = detail::IfBytes<Bytes>> Result<uint64_t> read_packed(const Bytes &text)
    {
        return read_packed(std::data(text), std::size(text));
    }
    // Nothing that would end at its first zero: the lines behind one in a damaged text would be missed.
    Result<uint64_t> read_packed(const char *) = delete;

    // Foreign locks: another program holds the name, or the packed table. Refused with 20 where the lock to be placed is not free,
    // or the one to be lifted is not foreign.
    Result<Done> place_lock(NameNumber name)
    {
        return detail::given(change(dehlbazin_place_lock, uint64_t(DEHLBAZIN_LOCKABLE_NAME), name.number()));
    }
    Result<Done> place_lock(PackedTable)
    {
        return detail::given(change(dehlbazin_place_lock, uint64_t(DEHLBAZIN_LOCKABLE_PACKED_TABLE), uint64_t(0)));
    }
    Result<Done> lift_lock(NameNumber name)
    {
        return detail::given(change(dehlbazin_lift_lock, uint64_t(DEHLBAZIN_LOCKABLE_NAME), name.number()));
    }
    Result<Done> lift_lock(PackedTable)
    {
        return detail::given(change(dehlbazin_lift_lock, uint64_t(DEHLBAZIN_LOCKABLE_PACKED_TABLE), uint64_t(0)));
    }

    // Prepares the edits: all of them, or none and the reason why.
    Result<Transaction> prepare(const EditList &edits, Mode mode = Mode::deletions)
    {
        return prepared(change(dehlbazin_prepare, edits.data(), edits.size(), uint64_t(mode)));
    }

    // Ends what is prepared, whoever prepared it: as after open. Where there is a Transaction of it, that one is over.
    Result<Outcome> commit(Committer committer, Allowance allowance = every_write)
    {
        const detail::Answer answer = change(dehlbazin_commit, committer.number(), allowance.number());
        const Outcome::End end = Outcome::End(answer.number);
        if (end != Outcome::End::all_written && end != Outcome::End::no_committer && end != Outcome::End::used_up)
            return Refusal(answer);
        transaction_over();
        return Outcome{end, answer.place(DEHLBAZIN_COMMIT_WRITES)};
    }
    Result<uint64_t> rollback()
    {
        Result<uint64_t> rows = detail::given(
            change(dehlbazin_rollback), [](const detail::Answer &answer) { return answer.place(DEHLBAZIN_ROLLBACK_ROWS); });
        if (rows)
            transaction_over();
        return rows;
    }

private:
    friend class Transaction;
    friend class Receiver;
    static constexpr size_t MOST_NAME_BYTES = 64;
    static constexpr uint8_t no_line = 0;

    Store(uint8_t *region, size_t size) : View(region, size), bytes_(region) {}

    template <typename Entry, typename... Arguments> detail::Answer change(Entry entry, Arguments... arguments)
    {
        return detail::ask(entry, bytes_, size_, arguments...);
    }

    // Whether some of these bytes are the region's.
    bool overlaps(const uint8_t *bytes, size_t size) const
    {
        const std::less<const uint8_t *> before{};
        return size > 0 && before(bytes, region_ + size_) && before(region_, bytes + size);
    }

    static Result<uint64_t> refs_of(const detail::Answer &answer)
    {
        return detail::given(answer, [](const detail::Answer &given) { return given.place(DEHLBAZIN_READ_PACKED_REFS); });
    }

    // What was prepared, by a list or by a receiver that was closed: both answer in the same places.
    Result<Transaction> prepared(const detail::Answer &answer)
    {
        static_assert(DEHLBAZIN_PREPARE_ROWS == DEHLBAZIN_CLOSE_RECEIVER_ROWS);
        if (answer.number != DEHLBAZIN_DONE)
            return Refusal(answer);
        return Transaction(*this, answer.place(DEHLBAZIN_PREPARE_ROWS));
    }

    void transaction_over() noexcept
    {
        if (transaction_)
            transaction_->store_ = nullptr;
        transaction_ = nullptr;
    }
    // Rolls back what a Transaction of this store still holds, since the region may not outlive the store.
    void drop() noexcept
    {
        if (transaction_)
            transaction_->give_up();
    }
    // The other is left with no region, which every call refuses with 1.
    void take(Store &other) noexcept
    {
        transaction_ = std::exchange(other.transaction_, nullptr);
        if (transaction_)
            transaction_->store_ = this;
        other.bytes_ = nullptr;
        other.region_ = nullptr;
        other.size_ = 0;
    }

    uint8_t *bytes_;
    Transaction *transaction_ = nullptr; // the one that is prepared, if it was prepared here
};

inline Transaction::Transaction(Store &store, uint64_t rows) : store_(&store), rows_(rows) { store.transaction_ = this; }

inline void Transaction::take(Transaction &other) noexcept
{
    store_ = std::exchange(other.store_, nullptr);
    rows_ = other.rows_;
    if (store_)
        store_->transaction_ = this;
}

// Only a region that was spoilt meanwhile refuses this, and then nothing is to be done about it.
inline void Transaction::give_up() noexcept
{
    if (!store_)
        return;
    Store *store = store_;
    (void)store->rollback();
    store->transaction_over();
}

inline Result<Outcome> Transaction::commit(Committer committer, Allowance allowance)
{
    if (!store_)
        return Refusal(Reason::wrong_state);
    return store_->commit(committer, allowance);
}

inline Result<uint64_t> Transaction::rollback()
{
    if (!store_)
        return uint64_t(0);
    return store_->rollback();
}

// ---- a list that arrives in fragments

// Bytes that are lent for as long as the receiver lives, and in which an edit list is collected: its bytes, EditList's data() and
// size(), cut anywhere. There is room for the longest list, 868 bytes.
class Receiver {
public:
    // Makes a fresh one, which holds nothing, whatever the bytes were. Refused with 1 for a wrong size.
    static Result<Receiver> fresh(ReceiverBytes &bytes) { return fresh(bytes.data(), bytes.size()); }
    static Result<Receiver> fresh(uint8_t *bytes, size_t size)
    {
        Receiver receiver(bytes, size);
        const Result<Done> made = receiver.make_fresh();
        return made ? Result<Receiver>(std::move(receiver)) : Result<Receiver>(*made.refusal());
    }

    // Takes up the one that stands there, with what it holds. Refused with 1 where the size is wrong, or the bytes are no good
    // receiver: they are what accepted fragments leave, or none.
    static Result<Receiver> open(ReceiverBytes &bytes) { return open(bytes.data(), bytes.size()); }
    static Result<Receiver> open(uint8_t *bytes, size_t size)
    {
        Receiver receiver(bytes, size);
        const Result<size_t> held = receiver.held();
        return held ? Result<Receiver>(std::move(receiver)) : Result<Receiver>(*held.refusal());
    }

    // The other is left with no bytes, which every call refuses with 1.
    Receiver(Receiver &&other) noexcept { take_over(other); }
    Receiver &operator=(Receiver &&other) noexcept
    {
        if (this != &other)
            take_over(other);
        return *this;
    }

    // Drops what it holds, good or not.
    Result<Done> make_fresh() { return detail::given(change(dehlbazin_fresh_receiver)); }

    // Puts a fragment behind what is held, and gives how many bytes are held now. Any bytes are one, none and a whole list too:
    // they are judged when the receiver is closed. Refused with 26 where there is no room for all of it, and the receiver stays as
    // it is. The bytes may be anywhere, in the receiver too: they are copied. There is room for 868, so that of more no more than
    // 869 are needed to be refused.
    Result<size_t> take(const uint8_t *fragment, size_t size)
    {
        std::array<uint8_t, DEHLBAZIN_LIST_MOST_BYTES + 1> copy;
        const size_t length = !fragment ? 0 : size < copy.size() ? size : copy.size();
        if (length > 0)
            std::memcpy(copy.data(), fragment, length);
        return held_by(change(dehlbazin_take_fragment, static_cast<const uint8_t *>(copy.data()), length));
    }
    Result<size_t> take(std::string_view fragment)
    {
        return take(reinterpret_cast<const uint8_t *>(fragment.data()), fragment.size());
    }
    // Bytes that know how many they are: an array, a std::array, a std::vector, and in C++20 a std::span.
    template <typename Bytes, typename = detail::IfBytes<Bytes>> Result<size_t> take(const Bytes &fragment)
    {
        return take(std::data(fragment), std::size(fragment));
    }
    // Nothing that would end at its first zero: a list has some.
    Result<size_t> take(const char *) = delete;

    // How many bytes are held: what an empty fragment is answered.
    Result<size_t> held() const
    {
        return held_by(detail::ask(dehlbazin_take_fragment, bytes_, size_, static_cast<const uint8_t *>(nullptr), size_t(0)));
    }

    // Prepares the list that is held, and gives what the store's prepare gives: a transaction, or the reason why not. Bytes that
    // are missing, or stand behind the list, make it malformed: 2. Either way the receiver is fresh then, so that a list that was
    // refused is sent again. Only a receiver that is not good stays as it is: 1.
    Result<Transaction> close(Store &store, Mode mode = Mode::deletions)
    {
        return store.prepared(store.change(dehlbazin_close_receiver, bytes_, size_, uint64_t(mode)));
    }

private:
    // Null is no receiver, whatever size is said to be there.
    Receiver(uint8_t *bytes, size_t size) : bytes_(bytes), size_(bytes ? size : 0) {}

    template <typename Entry, typename... Arguments> detail::Answer change(Entry entry, Arguments... arguments)
    {
        return detail::ask(entry, bytes_, size_, arguments...);
    }
    static Result<size_t> held_by(const detail::Answer &answer)
    {
        return detail::given(
            answer, [](const detail::Answer &given) { return size_t(given.place(DEHLBAZIN_TAKE_FRAGMENT_HELD)); });
    }
    void take_over(Receiver &other) noexcept
    {
        bytes_ = std::exchange(other.bytes_, nullptr);
        size_ = std::exchange(other.size_, size_t(0));
    }

    uint8_t *bytes_;
    size_t size_;
};

// ---- in words

namespace detail {

// Names by their bytes where there is a store to ask, else by their numbers.
struct Speaker {
    const View *view = nullptr;

    std::string name(NameNumber number) const
    {
        if (view)
            if (const Result<std::string_view> bytes = view->name_bytes(number))
                return std::string(*bytes.get());
        return "name " + std::to_string(number.number());
    }
    std::string target(const std::optional<Target> &target) const
    {
        if (!target)
            return "nothing";
        if (target->is_link())
            return "a link to " + name(*target->link());
        return "object " + std::to_string(target->number());
    }
    std::string found(const Found &found) const
    {
        const std::string place = words_of(found.place);
        return found.target ? target(found.target) + ", " + place : place;
    }
    std::string refusal(const Refusal &refusal) const
    {
        const std::string says = word_of(refusal.number()).says;
        if (refusal.reason() == Reason::not_registered)
            return "name " + std::to_string(refusal.name()->number()) + ": " + says;
        if (refusal.line_number())
            return "line " + std::to_string(*refusal.line_number()) + ": " + says;
        if (!refusal.name())
            return says;
        const std::string of = name(*refusal.name()) + ": " + says;
        switch (refusal.reason()) {
        case Reason::must_not_exist:
            return of + ", found " + target(refusal.actual()) + " where " + target(refusal.next()) + " was to be written";
        case Reason::must_exist:
            return of + " " + (refusal.expected() ? target(refusal.expected()) : "a value") + ", found nothing";
        case Reason::reference_out_of_date:
            return of + " " + target(refusal.expected()) + ", found " + target(refusal.actual());
        default:
            return of;
        }
    }
};

} // namespace detail

// "refs/heads/aisle: expected object 9, found a link to HEAD", or without a store "name 1: expected object 9, found a link to
// name 0".
inline std::string to_string(const Refusal &refusal) { return detail::Speaker{}.refusal(refusal); }
inline std::string to_string(const Refusal &refusal, const View &store) { return detail::Speaker{&store}.refusal(refusal); }

// "object 9", "a link to HEAD", "nothing".
inline std::string to_string(const std::optional<Target> &target) { return detail::Speaker{}.target(target); }
inline std::string to_string(const std::optional<Target> &target, const View &store)
{
    return detail::Speaker{&store}.target(target);
}

// "packed behind a broken loose".
inline std::string to_string(Place place) { return detail::words_of(place); }

// "object 9, packed", "a link to HEAD, loose", "absent".
inline std::string to_string(const Found &found) { return detail::Speaker{}.found(found); }
inline std::string to_string(const Found &found, const View &store) { return detail::Speaker{&store}.found(found); }

// "3 writes", or "stopped after 3 writes: the allowance is used up".
inline std::string to_string(const Outcome &outcome)
{
    const std::string writes = std::to_string(outcome.writes) + (outcome.writes == 1 ? " write" : " writes");
    return outcome.all_written() ? writes : "stopped after " + writes + ": " + detail::word_of(outcome.number()).says;
}

} // namespace dehlbazin

#endif
