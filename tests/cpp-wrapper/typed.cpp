#include "check.h"
#include "step.h"

#include <algorithm>

using namespace dehlbazin;
using Places = std::vector<uint64_t>;

static Reply reply(uint32_t number, const Places &places)
{
    Reply reply;
    reply.number = number;
    std::copy(places.begin(), places.end(), reply.places.begin());
    return reply;
}

static void put(Places &places, const std::optional<Target> &target)
{
    places.push_back(!target ? DEHLBAZIN_KIND_NONE : target->is_link() ? DEHLBAZIN_KIND_LINK : DEHLBAZIN_KIND_OBJECT);
    places.push_back(!target ? 0 : target->is_link() ? target->link()->number() : target->object()->number());
}

// The numbers of docs/ABI.md, written down a second time.
static uint64_t number_of(Place place)
{
    switch (place) {
    case Place::loose:
        return 1;
    case Place::packed:
        return 2;
    case Place::packed_behind_broken:
        return 3;
    case Place::absent:
        return 4;
    case Place::absent_behind_broken:
        return 5;
    }
    return 0; // no call answers so
}

// A refusal's places, from what it says of itself. The raw ones must say the same.
static Reply refusal_of(const Refusal &refusal)
{
    Places places;
    if (refusal.name())
        places.push_back(refusal.name()->number());
    if (refusal.line_number())
        places.push_back(*refusal.line_number());
    if (refusal.reason() == Reason::must_not_exist) {
        put(places, refusal.actual());
        put(places, refusal.next());
    }
    if (refusal.reason() == Reason::must_exist)
        put(places, refusal.expected() ? refusal.expected() : Target::object(ObjectNumber(0)));
    if (refusal.reason() == Reason::reference_out_of_date) {
        put(places, refusal.expected());
        put(places, refusal.actual());
    }
    const Reply all = reply(refusal.number(), places);
    for (size_t i = 0; i < all.places.size(); i++)
        check(refusal.place(i) == all.places[i], "a refusal's places are what it says");
    return all;
}

template <typename Value, typename Encode> static Reply reply_of(const Result<Value> &result, Encode encode)
{
    return result ? reply(0, encode(*result.get())) : refusal_of(*result.refusal());
}
static Reply reply_of(const Result<Done> &result)
{
    return reply_of(result, [](Done) { return Places{}; });
}

static std::optional<Target> target_of(uint64_t kind, uint64_t number)
{
    if (kind == DEHLBAZIN_KIND_NONE)
        return std::nullopt;
    return kind == DEHLBAZIN_KIND_LINK ? Target::link(NameNumber(number)) : Target::object(ObjectNumber(number));
}

static Expected expected_of(const Fields &fields)
{
    switch (fields.expected) {
    case DEHLBAZIN_EXPECTED_ANY:
        return Expected::any();
    case DEHLBAZIN_EXPECTED_MUST_EXIST:
        return Expected::must_exist();
    case DEHLBAZIN_EXPECTED_MUST_NOT_EXIST:
        return Expected::must_not_exist();
    case DEHLBAZIN_EXPECTED_MUST_EXIST_AND_MATCH:
        return Expected::must_exist_and_match(*target_of(fields.expected_kind, fields.expected_number));
    default:
        return Expected::existing_must_match(*target_of(fields.expected_kind, fields.expected_number));
    }
}

template <typename Some> static Some with_flags(const Fields &fields, Some edit)
{
    edit = edit.expecting(expected_of(fields));
    if (fields.deref)
        edit = edit.deref();
    return fields.log_only ? edit.log_only() : edit;
}

static Edit edit_of(const Fields &fields)
{
    const NameNumber name(fields.name);
    if (!fields.update)
        return with_flags(fields, Delete(name));
    const Update update = with_flags(fields, Update(name, *target_of(fields.next_kind, fields.next_number)));
    const Update with_message = update.message(Message(fields.message));
    return fields.force ? with_message.force() : with_message;
}

Reply Typed::load(const Step &step)
{
    const NameNumber name(step.a);
    if (step.op == Op::load_packed)
        return reply_of(store_.load_packed(
            name, step.b == DEHLBAZIN_KIND_NONE ? std::nullopt : std::optional<ObjectNumber>(ObjectNumber(step.c))));
    if (step.b == DEHLBAZIN_KIND_NONE || step.b == DEHLBAZIN_KIND_BROKEN)
        return reply_of(store_.load_loose(name, step.b == DEHLBAZIN_KIND_NONE ? Loose::none() : Loose::broken()));
    return reply_of(store_.load_loose(name, *target_of(step.b, step.c)));
}

// The number beside the packed table cannot be said with types. Through dehlbazin.h it is passed, and does nothing.
Reply Typed::lock(const Step &step)
{
    const bool place = step.op == Op::place_lock;
    if (step.a == DEHLBAZIN_LOCKABLE_PACKED_TABLE)
        return reply_of(place ? store_.place_lock(packed_table) : store_.lift_lock(packed_table));
    const NameNumber name(step.b);
    return reply_of(place ? store_.place_lock(name) : store_.lift_lock(name));
}

Reply Typed::prepare(const Step &step)
{
    EditList list;
    for (const Fields &fields : step.edits)
        check(list.add(edit_of(fields)).done(), "an edit is added");
    const std::string bytes(reinterpret_cast<const char *>(list.data()), list.size());
    check(bytes == list_bytes(step.edits), "the list's bytes");
    return keep(store_.prepare(list, Mode(step.a)));
}

Reply Typed::keep(Result<Transaction> prepared)
{
    const Reply all = reply_of(prepared, [](const Transaction &transaction) { return Places{transaction.row_count()}; });
    if (prepared)
        transaction_ = std::move(prepared).value();
    return all;
}

// How many bytes are held is asked for a second time, which changes nothing.
Reply Typed::receive(const Step &step)
{
    if (step.op == Op::fresh_receiver)
        return reply_of(receiver_.make_fresh());
    if (step.op == Op::close_receiver)
        return keep(receiver_.close(store_, Mode(step.a)));
    const uint8_t *bytes = reinterpret_cast<const uint8_t *>(step.bytes.data());
    const Result<size_t> held =
        step.way % 2 == 0 ? receiver_.take(step.bytes) : receiver_.take(bytes, step.bytes.size());
    check(!held || receiver_.held().value() == *held.get(), "as many are held as were answered");
    return reply_of(held, [](size_t now) { return Places{now}; });
}

Reply Typed::commit(const Step &step)
{
    const Committer committer(step.a);
    const Allowance allowance(step.b);
    const bool own = step.way % 2 == 0 && has_transaction();
    const Result<Outcome> outcome = own ? transaction_->commit(committer, allowance) : store_.commit(committer, allowance);
    return outcome ? reply(outcome.get()->number(), {outcome.get()->writes}) : refusal_of(*outcome.refusal());
}

Reply Typed::rollback(const Step &step)
{
    if (step.way % 3 == 0 && has_transaction()) {
        Places rows = {transaction_->row_count()};
        transaction_.reset(); // says nothing, and does the same
        return reply(0, rows);
    }
    const bool own = step.way % 3 == 1 && has_transaction();
    return reply_of(own ? transaction_->rollback() : store_.rollback(), [](uint64_t rows) { return Places{rows}; });
}

static Places places_of(const Row &row)
{
    Places places = {row.name.number(), row.is_update ? 1u : 2u, row.log_only,
                     row.force,         row.message.number(),    row.expected.kind()};
    put(places, row.expected.target());
    put(places, row.next);
    places.push_back(row.parent.has_value());
    places.push_back(row.parent.value_or(0));
    places.push_back(row.leaf_previous ? row.leaf_previous->number() : 0);
    places.push_back(number_of(row.found));
    return places;
}

Reply Typed::read(const Step &step)
{
    if (step.op == Op::name_bytes)
        return reply_of(store_.name_bytes(NameNumber(step.a)), [this](std::string_view bytes) {
            return Places{uint64_t(reinterpret_cast<const uint8_t *>(bytes.data()) - region_.data()), bytes.size()};
        });
    if (step.op == Op::read_line)
        return reply_of(store_.read_line(NameNumber(step.a), step.b), [](const Line &line) {
            return Places{line.previous ? line.previous->number() : 0, line.next.number(), line.committer.number(),
                          line.message.number()};
        });
    if (step.op == Op::read_row)
        return reply_of(store_.read_row(step.a), places_of);
    return reply_of(store_.read_name(NameNumber(step.a)), [](const Found &found) {
        Places places;
        put(places, found.target);
        places.push_back(number_of(found.place));
        return places;
    });
}

// Into a buffer with its size, or into one of the size that is always enough. The whole text is asked for besides, and is the same.
Reply Typed::write_text(const Step &step)
{
    std::string buffer(step.a, OLD);
    Result<size_t> length = store_.write_packed(reinterpret_cast<uint8_t *>(buffer.data()), buffer.size());
    if (step.a == DEHLBAZIN_PACKED_TEXT_MOST_BYTES && step.way % 2 == 0) {
        PackedTextBuffer whole;
        whole.fill(uint8_t(OLD));
        length = store_.write_packed(whole);
        buffer.assign(whole.begin(), whole.end());
    }
    const Result<std::string> text = store_.packed_text();
    check(text.done() == (length.number() != DEHLBAZIN_BAD_REGION), "the whole text is refused with a bad region alone");
    check(!length || *text.get() == buffer.substr(0, *length.get()), "the whole text, and the one in a buffer");
    Reply all = reply_of(length, [](size_t bytes) { return Places{bytes}; });
    all.buffer = buffer;
    return all;
}

Reply Typed::read_text(const Step &step)
{
    const uint8_t *bytes = reinterpret_cast<const uint8_t *>(step.bytes.data());
    const Result<uint64_t> refs =
        step.way % 3 == 0   ? store_.read_packed(step.bytes)
        : step.way % 3 == 1 ? store_.read_packed(bytes, step.bytes.size())
                            : store_.read_packed(std::vector<uint8_t>(bytes, bytes + step.bytes.size()));
    return reply_of(refs, [](uint64_t count) { return Places{count}; });
}

Reply Typed::make(const Step &step)
{
    switch (step.op) {
    case Op::start:
        return reply_of(store_.restart(Setting(step.a)));
    case Op::start_with_settings:
        return reply_of(store_.restart_with_settings(reinterpret_cast<const uint8_t *>(step.bytes.data()), step.bytes.size()));
    case Op::add_name:
        return reply_of(store_.add_name(step.bytes), [](NameNumber name) { return Places{name.number()}; });
    case Op::load_loose:
    case Op::load_packed:
        return load(step);
    case Op::place_lock:
    case Op::lift_lock:
        return lock(step);
    case Op::prepare:
        return prepare(step);
    case Op::commit:
        return commit(step);
    case Op::rollback:
        return rollback(step);
    case Op::fresh_receiver:
    case Op::take_fragment:
    case Op::close_receiver:
        return receive(step);
    case Op::write_packed:
        return write_text(step);
    case Op::read_packed:
        return read_text(step);
    default:
        return read(step);
    }
}
