// Settings records with each byte changed to every other value, with each byte left out, and of every length.
#include "desk.h"
#include "settings_samples.h"
#include "share.h"
#include "tests.h"

using namespace settings;

// Readers of both versions, and the first, the last and the next committer.
static void read_all_ways(Desk &desk, const Bytes &record, size_t committers)
{
    for (uint64_t known : {VERSION_1, VERSION_2})
        desk.reads(record, known);
    const size_t last = committers == 0 ? 0 : committers - 1;
    desk.reads_committer(record, VERSION_2, last);
    if (record.size() < 100)
        desk.reads_committer(record, VERSION_2, committers);
}

static void test_every_byte(const Bytes &record)
{
    const size_t committers = read(record, VERSION_2).committers.size();
    share_out(record.size(), [&](size_t first, size_t end) {
        Desk desk;
        for (size_t at = first; at < end; at++)
            for (unsigned change = 1; change < 256; change++) {
                Bytes changed = record;
                changed[at] ^= uint8_t(change);
                if (change == 1)
                    about("byte " + std::to_string(at) + " of a record of " + std::to_string(record.size()) + " changed");
                read_all_ways(desk, changed, committers);
            }
    });
}

static Bytes beginning(const Bytes &record, size_t size)
{
    return Bytes(record.begin(), record.begin() + std::ptrdiff_t(size));
}

// Cut at every length, with the length of the rest as it was and as it would be right; one byte more, of every value; and one byte
// left out or doubled anywhere.
static void test_every_length(const Bytes &record)
{
    Desk desk;
    const size_t committers = read(record, VERSION_2).committers.size();
    auto read_both = [&](Bytes bytes) {
        read_all_ways(desk, bytes, committers);
        if (bytes.size() < 3)
            return;
        bytes[1] = uint8_t((bytes.size() - 3) >> 8);
        bytes[2] = uint8_t(bytes.size() - 3);
        read_all_ways(desk, bytes, committers);
    };
    for (size_t size = 0; size <= record.size(); size++) {
        about("a record of " + std::to_string(record.size()) + " bytes cut to " + std::to_string(size));
        read_both(beginning(record, size));
    }
    for (unsigned byte = 0; byte < 256; byte++) {
        Bytes longer = record;
        longer.push_back(uint8_t(byte));
        about("a record of " + std::to_string(record.size()) + " bytes, and one more");
        read_both(longer);
    }
    for (size_t at = 0; at < record.size(); at++) {
        about("byte " + std::to_string(at) + " of a record left out, or doubled");
        Bytes less = record, more = record;
        less.erase(less.begin() + std::ptrdiff_t(at));
        more.insert(more.begin() + std::ptrdiff_t(at), record[at]);
        read_both(less);
        read_both(more);
    }
}

// Two bytes of the frame changed at once, so that lengths can fit each other again.
static void test_two_lengths(const Bytes &record)
{
    Desk desk;
    const size_t lengths[] = {2, 4, 8, 12, 16, record.size() - 4};
    for (size_t x : lengths)
        for (size_t y : lengths)
            for (int dx = -4; dx <= 4; dx++)
                for (int dy = -4; dy <= 4; dy++) {
                    Bytes changed = record;
                    changed[x] = uint8_t(changed[x] + dx);
                    changed[y] = uint8_t(changed[y] + dy);
                    read_all_ways(desk, changed, 2);
                }
}

void test_settings_changed()
{
    for (const Bytes &record : {example(VERSION_1), example(VERSION_2), bytes_of(VERSION_1, none()), bytes_of(VERSION_2, none()),
                                bytes_of(VERSION_2, short_names()), bytes_of(VERSION_2, longest())}) {
        test_every_byte(record);
        test_every_length(record);
    }
    for (uint64_t version : {VERSION_1, VERSION_2}) {
        about("two lengths of the example of version " + std::to_string(version));
        test_two_lengths(example(version));
    }
    about("");
}
