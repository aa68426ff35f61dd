#include "peers.h"

uint64_t sum(const Bytes &region)
{
    uint64_t total = 0;
    for (uint8_t byte : region)
        total += byte;
    return total;
}

bool check_by_hand(const Bytes &region) { return decode(region).has_value(); }

bool is_change(Op op)
{
    switch (op) {
    case Op::name_bytes:
    case Op::read_name:
    case Op::read_line:
    case Op::read_row:
    case Op::write_packed:
        return false;
    default:
        return true;
    }
}

// Start looks at nothing that was there.
static std::optional<Store> store_before(const Bytes &region, Op op)
{
    return op == Op::start ? std::optional<Store>(Store{}) : decode(region);
}

uint32_t call_by_hand(const Bytes &region, const Call &call, Bytes &left)
{
    std::optional<Store> store = store_before(region, call.op);
    if (!store)
        return 1;
    uint32_t number = answer_of(*store, call).number;
    if (is_change(call.op) && !is_refusal(number))
        left = encode(*store);
    return number;
}
