// The calls of the settings record, each made in the archive and by our own reader and writer, and all compared.
#pragma once

#include "check.h"
#include "lent.h"
#include "settings.h"

// Memory of at most so many bytes that is lent again and again. What is put there ends at a page that nobody may touch, and the
// bytes before it are watched. A list of numbers is aligned there.
class Tray {
public:
    explicit Tray(size_t most);

    // The bytes as they are lent: a null pointer where there are none.
    uint8_t *put(const Bytes &bytes);
    const uint64_t *put(const std::vector<uint64_t> &numbers);

    // They stand there, and nothing before them was written.
    bool holds(const Bytes &bytes) const { return holds(bytes.data(), bytes.size()); }
    bool holds(const std::vector<uint64_t> &numbers) const { return holds(numbers.data(), 8 * numbers.size()); }

    Bytes bytes() const { return Bytes(at(used), at(0)); }

private:
    uint8_t *at(size_t before_end) const { return lent.data() + lent.size() - before_end; }
    uint8_t *place(size_t size);
    bool holds(const void *bytes, size_t size) const;

    Lent lent;
    const Bytes watched;
    size_t used = 0;
};

// Each call compares the number, every byte of the answer, and every byte that was lent and that stands before it. With an answer
// of another size than 128 the number is 1, and no byte is written. Gives the archive's number, and leaves answer and buffer.
class Desk {
public:
    // Bytes and lists of at most so many bytes each.
    explicit Desk(size_t most = 1536);

    uint32_t reads(const Bytes &record, uint64_t known, size_t answer_len = 128, AT_CALLER);
    uint32_t reads_committer(const Bytes &record, uint64_t known, uint64_t place, size_t answer_len = 128, AT_CALLER);
    // Into a buffer with these bytes.
    uint32_t writes(const settings::Order &order, const Bytes &buffer, size_t answer_len = 128, AT_CALLER);

    Bytes answer() const { return answers.bytes(); }
    Bytes buffer() const { return buffers.bytes(); }

private:
    uint8_t *clear(size_t answer_len);
    void compare(uint32_t number, const Answer &wanted, size_t answer_len, const Bytes &lent, At at) const;
    const settings::Reading &reading_of(const Bytes &record, uint64_t known);

    Bytes last_record;
    uint64_t last_known = 0;
    settings::Reading reading = settings::read({}, 0);
    Tray records, buffers, numbers, lengths, names, answers;
};

// The 128 bytes of an answer.
Bytes bytes_of(const Answer &answer);

// Bytes in pairs of hexadecimal digits.
std::string in_hex(const Bytes &bytes);
