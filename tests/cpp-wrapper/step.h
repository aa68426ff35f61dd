// A call as numbers and bytes, which can be made in two ways: through dehlbazin.h, and through dehlbazin.hpp.
#pragma once

#include "dehlbazin.hpp"

#include <array>
#include <string>
#include <vector>

enum class Op {
    start,
    add_name,
    name_bytes,
    load_loose,
    load_packed,
    place_lock,
    lift_lock,
    prepare,
    commit,
    rollback,
    read_name,
    read_line,
    read_row,
    start_with_settings,
    fresh_receiver,
    take_fragment,
    close_receiver,
    write_packed,
    read_packed,
};
constexpr size_t OPS = size_t(Op::read_packed) + 1;

// An edit in numbers. An update has a target, object or link; a delete has neither force nor a message.
struct Fields {
    bool update = true, deref = false, log_only = false, force = false;
    uint64_t expected = DEHLBAZIN_EXPECTED_ANY;
    uint64_t expected_kind = DEHLBAZIN_KIND_NONE, expected_number = 0;
    uint64_t next_kind = DEHLBAZIN_KIND_NONE, next_number = 0;
    uint64_t name = 0, message = 0;
};

struct Step {
    Op op;
    uint64_t a = 0, b = 0, c = 0; // the numbers, in the call's order; of a buffer how many bytes it has
    std::string bytes{};          // a name's, a settings record's, a fragment, or a text
    std::vector<Fields> edits{};
    unsigned way = 0; // of a commit or a rollback: through the transaction, or the store, or by letting it go; of bytes too
};

struct Reply {
    uint32_t number = 0;
    std::array<uint64_t, 16> places{};
    std::string buffer{}; // what is left of the buffer that is written into
};
inline bool operator==(const Reply &x, const Reply &y)
{
    return x.number == y.number && x.places == y.places && x.buffer == y.buffer;
}
constexpr char OLD = '\x77'; // what stands in a buffer before

// The bytes of an edit list, by the table of docs/SPEC.md.
std::string list_bytes(const std::vector<Fields> &edits);

// Through dehlbazin.h.
Reply make_plainly(const Step &step, dehlbazin::Region &region, dehlbazin::ReceiverBytes &receiver);

// Through dehlbazin.hpp, with a transaction that is kept from its preparing on. What is given as values is put back into places.
class Typed {
public:
    Typed(dehlbazin::Region &region, dehlbazin::ReceiverBytes &receiver)
        : region_(region), store_(dehlbazin::Store::open(region).value()),
          receiver_(dehlbazin::Receiver::open(receiver).value())
    {
    }
    Reply make(const Step &step);
    bool has_transaction() const { return transaction_ && transaction_->prepared(); }

private:
    Reply load(const Step &step);
    Reply lock(const Step &step);
    Reply prepare(const Step &step);
    Reply receive(const Step &step);
    Reply keep(dehlbazin::Result<dehlbazin::Transaction> prepared);
    Reply commit(const Step &step);
    Reply rollback(const Step &step);
    Reply read(const Step &step);
    Reply write_text(const Step &step);
    Reply read_text(const Step &step);

    dehlbazin::Region &region_;
    dehlbazin::Store store_;
    dehlbazin::Receiver receiver_;
    std::optional<dehlbazin::Transaction> transaction_;
};
