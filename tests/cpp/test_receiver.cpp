// The receiver by hand: the bytes that fragments leave, each length at its bound and past it, and bytes that are no receiver.
#include "dock.h"
#include "lists.h"
#include "samples.h"
#include "tests.h"

#include <algorithm>

using namespace receiver;

static const size_t LONG = 5 * 65536; // more bytes than any fragment has here

// Bytes of which no two neighbours are the same, and none is 0.
static std::string some_bytes(size_t size)
{
    std::string bytes(size, '\0');
    for (size_t i = 0; i < size; i++)
        bytes[i] = char(1 + i % 251);
    return bytes;
}

// The archive answers this, and so does our own receiver, which a dock compares with it.
static void takes(Dock &dock, Bytes &receiver, std::string_view fragment, uint32_t number, uint64_t now = 0, AT_CALLER)
{
    const Bytes before = receiver;
    const uint32_t given = dock.takes(receiver, fragment, 128, at);
    check(given == number, "number " + std::to_string(given) + " instead of the stated " + std::to_string(number), at);
    check(dock.answer() == bytes_of(::answer(number, {now})), "the answer is not the stated one", at);
    check(number == 0 || receiver == before, "a refused fragment changes the receiver", at);
}

// ---- what fragments leave

// Byte by byte, as the document has it: the count in two bytes, the higher first, what is held, and zeros.
static void test_image()
{
    Dock dock;
    Bytes receiver(870, 0xEE), stated(870, 0);
    check(dock.freshens(receiver) == 0 && receiver == stated, "a fresh receiver has 870 zeros");
    takes(dock, receiver, "abc", 0, 3);
    stated[1] = 3;
    stated[2] = 'a';
    stated[3] = 'b';
    stated[4] = 'c';
    check(receiver == stated, "00 03 61 62 63");
    takes(dock, receiver, std::string_view("\0d", 2), 0, 5); // a zero is a byte like any other
    stated[1] = 5;
    stated[6] = 'd';
    check(receiver == stated, "00 05 61 62 63 00 64");
    takes(dock, receiver, std::string(251, 'x'), 0, 256);
    stated[0] = 1;
    stated[1] = 0;
    std::fill(stated.begin() + 7, stated.begin() + 258, uint8_t('x'));
    check(receiver == stated, "01 00, and 256 bytes");
    takes(dock, receiver, std::string(612, 'y'), 0, 868);
    stated[0] = 3;
    stated[1] = 0x64;
    std::fill(stated.begin() + 258, stated.end(), uint8_t('y'));
    check(receiver == stated, "03 64, and 868 bytes");
    check(dock.freshens(receiver) == 0 && receiver == Bytes(870, 0), "fresh again");
}

// What is held does not tell how it was cut; and a fragment of no bytes changes none.
static void test_empty_fragments()
{
    Dock dock;
    for (size_t size : {0, 1, 255, 256, 512, 867, 868}) {
        Bytes receiver = fresh();
        takes(dock, receiver, some_bytes(size), 0, size);
        const Bytes before = receiver;
        for (int time = 0; time < 3; time++)
            takes(dock, receiver, "", 0, size);
        check(receiver == before, "an empty fragment changes the receiver");
    }
}

// ---- lengths

static void test_single_fragments()
{
    Dock dock(LONG);
    for (size_t size : {0, 1, 2, 255, 256, 257, 511, 512, 513, 866, 867, 868}) {
        Bytes receiver = fresh();
        takes(dock, receiver, some_bytes(size), 0, size);
        check(receiver == holding(some_bytes(size)), "it holds the fragment");
    }
    // The last ones have a length that a shorter number would take for one that fits.
    for (size_t size : {869, 870, 871, 895, 1023, 1024, 65535, 65536, 65537, 65536 + 512, 65536 + 868, 4 * 65536, 4 * 65536 + 31}) {
        Bytes receiver = fresh();
        takes(dock, receiver, some_bytes(size), 26);
        takes(dock, receiver, "then a shorter one", 0, 18);
    }
}

// So many are held, and so many more come: just as many as there is room for, one less, and one more.
static void test_totals()
{
    Dock dock(LONG);
    for (size_t held : {0, 1, 2, 255, 256, 257, 356, 512, 513, 612, 866, 867, 868}) {
        const Bytes begun = holding(some_bytes(held));
        const size_t room = 868 - held;
        for (size_t size : {room, room > 0 ? room - 1 : 0, room / 2}) {
            Bytes receiver = begun;
            takes(dock, receiver, some_bytes(size), 0, held + size);
        }
        for (size_t size : {room + 1, room + 2, room + 256, room + 512, room + 65536, room + 1 + 2 * 65536}) {
            Bytes receiver = begun;
            takes(dock, receiver, some_bytes(size), 26);
            takes(dock, receiver, some_bytes(room), 0, 868); // the room is still there
        }
    }
}

// 868 bytes in all, and then one more, whatever the sizes of the fragments.
static void test_full()
{
    Dock dock;
    for (size_t piece : {1, 2, 4, 7, 14, 28, 31, 62, 124, 217, 434, 868}) {
        Bytes receiver = fresh();
        const std::string all = some_bytes(868);
        for (size_t at = 0; at < all.size(); at += piece)
            takes(dock, receiver, std::string_view(all).substr(at, piece), 0, at + piece);
        takes(dock, receiver, "x", 26);
        takes(dock, receiver, "", 0, 868);
        check(receiver == holding(all), "it holds all that came");
    }
}

// ---- bytes that are no receiver

static Bytes with(Bytes receiver, size_t at, uint8_t byte)
{
    receiver[at] = byte;
    return receiver;
}

static Bytes with_count(const Bytes &receiver, size_t count)
{
    return with(with(receiver, 0, uint8_t(count >> 8)), 1, uint8_t(count));
}

static Bytes of_size(Bytes receiver, size_t size)
{
    receiver.resize(size);
    return receiver;
}

static std::vector<Bytes> damaged()
{
    const Bytes list = holding(write_list({with_message(updating(1, object(7)), 3)})), full = holding(longest_list());
    std::vector<Bytes> all = {Bytes(870, 0xFF), Bytes(870, 1), {}};
    for (const Bytes &good : {fresh(), list, full})
        for (size_t count : {869, 870, 871, 1023, 1024, 32768 + 31, 65535})
            all.push_back(with_count(good, count));
    all.push_back(with_count(list, 30));           // the last byte that is held stands behind what is counted
    all.push_back(with_count(list, 0));
    all.push_back(with_count(list, 0x1F00));       // the two bytes the other way round
    all.push_back(with_count(full, 867));
    all.push_back(with(fresh(), 2, 1));            // another byte than 0 behind what is held: the first, and the last
    all.push_back(with(fresh(), 869, 128));
    all.push_back(with(list, 2 + 31, 1));
    all.push_back(with(list, 869, 255));
    all.push_back(with(holding(some_bytes(867)), 869, 1));
    for (const Bytes &good : {fresh(), list, full})
        for (size_t size : {1, 2, 3, 868, 869, 871, 872, 870 + 256, 2 * 870})
            all.push_back(of_size(good, size));
    return all;
}

// 1 of a fragment, whatever it is, and of a closing; neither changes a byte. Made fresh, bytes of the right size are a good one.
static void test_damaged()
{
    Dock dock(LONG);
    const Bytes region = encode(marked());
    for (const Bytes &bytes : damaged()) {
        about("a damaged receiver of " + std::to_string(bytes.size()) + ", " + in_hex(bytes).substr(0, 80));
        check(!held(bytes), "our own reader takes it for a good one");
        Bytes receiver = bytes;
        for (size_t size : {0, 1, 512, 868, 869, 65536})
            takes(dock, receiver, some_bytes(size), 1);
        for (uint64_t mode : {0, 1, 3, 4}) {
            check(dock.closes(region, receiver, mode) == 1, "closing takes it for a good one");
            check(receiver == bytes && dock.region() == region, "closing changes it, or the region");
        }
        const bool sized = bytes.size() == 870;
        check(dock.freshens(receiver) == (sized ? 0 : 1), "a fresh one is made of any bytes of its size, and of no others");
        check(receiver == (sized ? Bytes(870, 0) : bytes), "a fresh one");
        if (sized)
            takes(dock, receiver, "abc", 0, 3);
    }
    about("");
}

// Zeros that a list ends with are held, and so a lower count leaves a good receiver where there are enough of them.
static void test_zeros()
{
    Dock dock;
    const std::string zeros(40, '\0');
    Bytes receiver = holding("abc" + zeros);
    for (size_t count = 0; count <= 868; count++) {
        Bytes counted = with_count(receiver, count);
        if (count < 3)
            takes(dock, counted, "", 1);
        else
            takes(dock, counted, "", 0, count);
    }
}

void test_receiver()
{
    test_image();
    test_empty_fragments();
    test_single_fragments();
    test_totals();
    test_full();
    test_damaged();
    test_zeros();
}
