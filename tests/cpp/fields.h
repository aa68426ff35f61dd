// Fields that stand one after the other, as in a region and in an edit list. Numbers are big-endian.
#pragma once

#include "store.h"

// Writes fields, each with the width that the document gives it.
struct Pen {
    uint8_t *at;

    void number(uint64_t value, size_t bytes)
    {
        for (size_t i = bytes; i-- > 0; value >>= 8)
            at[i] = uint8_t(value);
        at += bytes;
    }

    void value(const Value &v)
    {
        number(v.kind, 1);
        number(v.number, 8);
    }
};

// Reads them.
struct Eye {
    const uint8_t *at;

    uint64_t number(size_t bytes)
    {
        uint64_t value = 0;
        for (; bytes > 0; bytes--)
            value = value << 8 | *at++;
        return value;
    }

    // A field of the type that takes it.
    template <typename Field> void into(Field &field) { field = Field(number(sizeof field)); }

    void into(Value &value)
    {
        into(value.kind);
        into(value.number);
    }
};
