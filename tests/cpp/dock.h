// The calls of a receiver, each made in the archive and by our own receiver, and all compared.
#pragma once

#include "desk.h"
#include "receiver.h"

// Each call compares the number, every byte of the answer, and every byte that was lent and that stands before it: of the receiver,
// of the fragment and of the region. With an answer of another size than 128 the number is 1, and no byte is written. The receiver,
// of any size and any bytes, becomes what our own makes of it. Gives the archive's number, and leaves what it answered.
class Dock {
public:
    // Receivers, fragments and regions of at most so many bytes each; a region of the right size always.
    explicit Dock(size_t most = 2048);

    uint32_t freshens(Bytes &receiver, size_t answer_len = 128, AT_CALLER);
    uint32_t takes(Bytes &receiver, std::string_view fragment, size_t answer_len = 128, AT_CALLER);
    // On a region, which is lent as a copy, so that it stays.
    uint32_t closes(const Bytes &region, Bytes &receiver, uint64_t mode, size_t answer_len = 128, AT_CALLER);

    Bytes answer() const { return answers.bytes(); }
    // As the last closing left it.
    Bytes region() const { return regions.bytes(); }

private:
    uint8_t *clear(size_t answer_len);
    void compare(uint32_t number, const Answer &wanted, size_t answer_len, const std::string &what, At at) const;
    const std::optional<Store> &store_of(const Bytes &region);

    Bytes last_region;
    std::optional<Store> last_store;
    Tray receivers, fragments, regions, answers;
};
