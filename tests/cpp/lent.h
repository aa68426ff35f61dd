// Memory as a caller lends it, laid so that a call that leaves it is found out: it ends at a page that nobody may touch, and
// the bytes before it are watched. It begins at no particular alignment.
#pragma once

#include "image.h"

class Lent {
public:
    explicit Lent(size_t size);
    explicit Lent(const Bytes &bytes);
    explicit Lent(size_t size, uint8_t fill);
    ~Lent();
    Lent(const Lent &) = delete;
    Lent &operator=(const Lent &) = delete;

    uint8_t *data() const { return first; }
    size_t size() const { return length; }
    void fill(uint8_t byte);
    void set(const Bytes &bytes);

    bool holds(const uint8_t *bytes) const;
    bool holds(const Bytes &bytes) const { return bytes.size() == length && holds(bytes.data()); }
    bool is_filled(uint8_t byte) const;

    // No byte before the memory was written.
    bool is_alone() const;

    // From now on a write into the memory crashes.
    void only_read();

private:
    uint8_t *pages, *open, *first;
    size_t mapped, inner, length;
};
