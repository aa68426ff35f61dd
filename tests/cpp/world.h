// A region of the archive and a store of our own, side by side: each call is made on both, and all is compared.
#pragma once

#include "calls.h"
#include "check.h"
#include "lent.h"

constexpr size_t ANSWER = 128;

class World {
public:
    explicit World(const Store &store);
    explicit World(uint8_t setting = 1) : World(Store{setting, {}, FREE, {}, 0, {}}) {}

    // The call gives this number and these places, the others 0. A done or stopped call leaves the region of our own store
    // after the same call; a refused one leaves every byte.
    void gives(const Call &call, uint32_t number, const std::vector<uint64_t> &places = {}, AT_CALLER);

    // The call does what our own store does.
    Answer agrees(const Call &call, AT_CALLER);

    // So does a start with a settings record, of any bytes.
    Answer starts(const Bytes &settings, AT_CALLER);

    // So does closing a receiver, of any bytes, which becomes what our own makes of it.
    Answer closes(Bytes &receiver, uint64_t mode, AT_CALLER);

    const Store &store() const { return own; }

    // From now on this is the store: the next call begins with its bytes.
    void is_now(const Store &store);

    // What the archive itself gave to the last call and left of the region, and of the buffer of the last call that had one, right
    // or wrong. The next call begins with the bytes of our own store again, so that one failure makes no others.
    uint32_t number() const { return given; }
    uint64_t place(size_t i) const;
    const Lent &region() const { return lent; }
    const std::string &buffer() const { return written; }

private:
    void begin();
    void compare(const std::string &what, const Answer &wanted, At at);

    Store own;
    Lent lent, record;
    std::string written;
    uint32_t given = 0;
    bool is_wrong = false;
};

// What a region is taken for: a call that only reads, and always refuses, gives 22 if it is good and 1 if it is not.
// Checks that the archive and our own decoder agree that it is good or not, that nothing is written, that what is good is
// written as the same bytes again, and that rollback then does the same on both.
void taken_for(bool good, const Bytes &region, const std::string &what, AT_CALLER);
