#include "world.h"

#include "dehlbazin.h"
#include "entries.h"
#include "receiver.h"
#include "settings.h"

static const uint8_t OLD = 0xEE; // what stands in a record before a call

static Bytes record_of(const Answer &answer)
{
    Bytes bytes;
    for (uint64_t place : answer.places)
        for (int shift = 56; shift >= 0; shift -= 8)
            bytes.push_back(uint8_t(place >> shift));
    return bytes;
}

static std::string difference(const Lent &found, const Bytes &wanted)
{
    for (size_t i = 0; i < wanted.size(); i++)
        if (found.data()[i] != wanted[i])
            return "byte " + std::to_string(i) + " is " + std::to_string(found.data()[i]) + " instead of " +
                   std::to_string(wanted[i]);
    return "no difference";
}

static bool check_bytes(const Lent &found, const Bytes &wanted, const std::string &what, const At &at)
{
    bool same = found.holds(wanted);
    if (same)
        passed();
    else
        failed(at, what + ": " + difference(found, wanted));
    return same;
}

World::World(const Store &store) : own(store), lent(encode(store)), record(ANSWER, OLD) {}

void World::is_now(const Store &store)
{
    own = store;
    is_wrong = true;
}

void World::begin()
{
    if (is_wrong)
        lent.set(encode(own));
    record.fill(OLD);
}

void World::compare(const std::string &what, const Answer &wanted, At at)
{
    if (given == wanted.number)
        passed();
    else
        failed(at, what + ": number " + std::to_string(given) + " instead of " + std::to_string(wanted.number));
    check_bytes(record, record_of(wanted), what + ": record", at);
    is_wrong = !check_bytes(lent, encode(own), what + ": region", at);
    if (lent.is_alone() && record.is_alone())
        passed();
    else
        failed(at, what + ": bytes before the region or the record are written");
}

Answer World::agrees(const Call &call, At at)
{
    begin();
    Answer wanted = answer_of(own, call);
    std::string left;
    given = run(call, lent.data(), lent.size(), record.data(), record.size(), &left);
    compare(describe(call), wanted, at);
    if (call.op == Op::write_packed) {
        check(left == left_of(own, call), describe(call) + ": the buffer", at);
        written = left;
    }
    return wanted;
}

Answer World::starts(const Bytes &settings, At at)
{
    begin();
    Answer wanted = settings::start_with_settings(own, settings);
    Lent bytes(settings);
    const uint8_t *first = settings.empty() ? nullptr : bytes.data();
    given = dehlbazin_start_with_settings(lent.data(), lent.size(), first, bytes.size(), record.data(), record.size());
    compare("start with settings", wanted, at);
    check(bytes.holds(settings) && bytes.is_alone(), "start with settings: the settings", at);
    return wanted;
}

Answer World::closes(Bytes &receiver, uint64_t mode, At at)
{
    begin();
    Lent bytes(receiver);
    std::optional<Store> store = own;
    Answer wanted = receiver::close_receiver(store, receiver, mode);
    own = *store;
    given = dehlbazin_close_receiver(lent.data(), lent.size(), bytes.data(), bytes.size(), mode, record.data(), record.size());
    compare("closing a receiver in mode " + std::to_string(mode), wanted, at);
    check(bytes.holds(receiver) && bytes.is_alone(), "closing a receiver: its bytes", at);
    return wanted;
}

uint64_t World::place(size_t i) const { return dehlbazin_place(record.data(), i); }

void World::gives(const Call &call, uint32_t number, const std::vector<uint64_t> &places, At at)
{
    const Bytes before = encode(own);
    Answer stated = answer(number, places);
    check(agrees(call, at) == stated, describe(call) + ": our own store does not give what the check states", at);
    check_bytes(record, record_of(stated), describe(call) + ": record", at);
    if (is_refusal(number))
        check(encode(own) == before, describe(call) + ": our own store is changed by a refusal", at);
}

void taken_for(bool good, const Bytes &region, const std::string &what, At at)
{
    std::optional<Store> own = decode(region);
    check(own.has_value() == good, what + ": our own decoder takes it the other way", at);

    Lent lent(region), record(ANSWER, OLD);
    uint32_t number = run(call::read_row(1000000), lent.data(), lent.size(), record.data(), record.size());
    check(number == (good ? 22 : 1), what + ": the archive gives " + std::to_string(number), at);
    check_bytes(record, Bytes(ANSWER), what + ": record", at);
    if (!check_bytes(lent, region, what + ": region", at))
        lent.set(region);

    number = run(call::rollback(), lent.data(), lent.size(), record.data(), record.size());
    check(number == (good ? 0 : 1), what + ": rollback gives " + std::to_string(number), at);
    if (own) {
        check(encode(*own) == region, what + ": our own encoder writes other bytes", at);
        check_bytes(record, record_of(answer_of(*own, call::rollback())), what + ": rollback's record", at);
        check_bytes(lent, encode(*own), what + ": rollback's region", at);
    } else {
        check_bytes(record, Bytes(ANSWER), what + ": rollback's record", at);
        check_bytes(lent, region, what + ": rollback's region", at);
    }
}
