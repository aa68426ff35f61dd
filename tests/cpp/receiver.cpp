#include "receiver.h"

#include "prepare.h"

#include <algorithm>
#include <cstdlib>

namespace receiver {

Bytes fresh() { return Bytes(SIZE, 0); }

Bytes holding(std::string_view held)
{
    if (held.size() > ROOM)
        std::abort();
    Bytes bytes = fresh();
    bytes[0] = uint8_t(held.size() / 256);
    bytes[1] = uint8_t(held.size() % 256);
    std::copy(held.begin(), held.end(), bytes.begin() + AT_BYTES);
    return bytes;
}

std::optional<std::string> held(const Bytes &receiver)
{
    if (receiver.size() != SIZE)
        return {};
    const size_t count = 256 * size_t(receiver[0]) + receiver[1];
    if (count > ROOM)
        return {};
    const auto first = receiver.begin() + AT_BYTES, behind = first + std::ptrdiff_t(count);
    if (std::any_of(behind, receiver.end(), [](uint8_t byte) { return byte != 0; }))
        return {};
    return std::string(first, behind);
}

Answer fresh_receiver(Bytes &receiver)
{
    if (receiver.size() != SIZE)
        return answer(1);
    receiver = fresh();
    return answer(0);
}

Answer take_fragment(Bytes &receiver, std::string_view fragment)
{
    const std::optional<std::string> before = held(receiver);
    if (!before)
        return answer(1);
    if (fragment.size() > ROOM - before->size())
        return answer(26);
    const std::string now = *before + std::string(fragment);
    receiver = holding(now);
    return answer(0, {now.size()});
}

Answer close_receiver(std::optional<Store> &store, Bytes &receiver, uint64_t mode)
{
    const std::optional<std::string> list = held(receiver);
    if (!list)
        return answer(1);
    receiver = fresh();
    return store ? prepare(*store, *list, mode) : answer(1);
}

} // namespace receiver
