// Each bit of several receivers turned over in turn, and every count before some bytes. The archive takes a fragment of no bytes,
// and closes the receiver, exactly if our own reader takes it for a good one; and then does what our own does. And each bit in use
// of some regions turned over before a closing.
#include "dock.h"
#include "lists.h"
#include "samples.h"
#include "share.h"
#include "tests.h"

#include <atomic>

using namespace receiver;

// Whether it is good: a fragment of no bytes is taken then, and leaves it as it is; closing gives 1 only if it is not.
static bool is_taken(Dock &dock, const Bytes &bytes, const Bytes &region)
{
    Bytes receiver = bytes;
    const uint32_t taken = dock.takes(receiver, "");
    check(receiver == bytes, "a fragment of no bytes changes the receiver");
    const uint32_t closed = dock.closes(region, receiver, 1);
    check((taken == 0) == (closed != 1), "a fragment and a closing do not agree whether the receiver is good");
    check(receiver == (taken == 0 ? fresh() : bytes), "a closing leaves something else");
    return taken == 0;
}

// The bits of the bytes that are held leave a good receiver, those behind them a bad one. Those of the count depend on how many
// zeros stand around the end of what is held.
static void flip_all(const std::string &list, const Store &store)
{
    const Bytes good = holding(list), region = encode(store);
    share_out(8 * SIZE, [&](size_t first, size_t end) {
        Dock dock;
        Bytes receiver = good;
        for (size_t bit = first; bit < end; bit++) {
            const size_t byte = bit / 8;
            about("bit " + std::to_string(bit % 8) + " of byte " + std::to_string(byte) + " of a receiver of " +
                  std::to_string(list.size()) + " bytes");
            receiver[byte] ^= uint8_t(1 << bit % 8);
            const bool taken = is_taken(dock, receiver, region);
            check(taken == held(receiver).has_value(), "our own reader does not agree");
            if (byte >= AT_BYTES)
                check(taken == (byte < AT_BYTES + list.size()), "it is taken for the wrong kind");
            receiver[byte] ^= uint8_t(1 << bit % 8);
        }
    });
}

static void test_bits()
{
    const std::string list = write_list({through(updating(0, object(7)))}), zeros(300, '\0');
    flip_all("", marked());
    flip_all(std::string(1, '\0'), marked());
    flip_all(list, marked());
    flip_all(list + zeros, marked()); // many counts leave it good
    flip_all(longest_list().substr(0, 512), plain(32));
    flip_all(longest_list().substr(0, 867), plain(32));
    flip_all(longest_list(), plain(32));
}

// Every count of two bytes, before bytes of which the last that is not 0 is this one, or of which all are 0.
static void test_counts(size_t last)
{
    Bytes begun = fresh();
    if (last > 0)
        begun[AT_BYTES + last - 1] = 7;
    std::atomic<size_t> good = 0;
    share_out(65536, [&](size_t first, size_t end) {
        Dock dock;
        for (size_t count = first; count < end; count++) {
            Bytes receiver = begun;
            receiver[0] = uint8_t(count >> 8);
            receiver[1] = uint8_t(count);
            const bool taken = dock.takes(receiver, "") == 0;
            check(taken == (last <= count && count <= 868),
                  "count " + std::to_string(count) + ", and the last byte at " + std::to_string(last));
            good += taken;
        }
    });
    check(good == 868 - last + 1, std::to_string(good) + " counts leave a good receiver");
}

// 1 where the region is not good any more, else what prepare says. A fresh receiver follows either.
static void flip_region(const Store &store, const std::string &list)
{
    const std::vector<size_t> bits = bits_in_use(store);
    std::atomic<size_t> good = 0, bad = 0;
    share_out(bits.size(), [&](size_t first, size_t end) {
        Dock dock;
        Bytes region = encode(store);
        for (size_t i = first; i < end; i++) {
            about("bit " + std::to_string(bits[i] % 8) + " of byte " + std::to_string(bits[i] / 8) + " of a region");
            uint8_t &byte = region[bits[i] / 8];
            byte ^= uint8_t(1 << bits[i] % 8);
            Bytes receiver = holding(list);
            (dock.closes(region, receiver, 1 + i % 3) == 1 ? bad : good)++;
            check(receiver == fresh(), "no fresh receiver follows");
            byte ^= uint8_t(1 << bits[i] % 8);
        }
    });
    check(good > 100 && bad > 100, std::to_string(good) + " bits leave a good region, " + std::to_string(bad) + " a bad one");
}

static void test_regions()
{
    flip_region(marked(), write_list({through(updating(0, object(7)))}));
    flip_region(nested(), write_list({updating(3, object(6)), deleting(5)}));
    flip_region(prepared(), write_list({updating(5, object(6))}));
}

void test_receiver_flips()
{
    test_bits();
    test_regions();
    about("");
    for (size_t last : {0, 1, 255, 256, 600, 868})
        test_counts(last);
}
