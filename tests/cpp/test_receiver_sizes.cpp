// Wrong sizes of receiver, region and answer record with each of the three calls, null pointers, memory that can only be read, and
// pointers without alignment.
#include "dehlbazin.h"
#include "dock.h"
#include "samples.h"
#include "tests.h"
#include "world.h"

#include <algorithm>
#include <sys/mman.h>

static const uint8_t OLD = 0xEE;
static const size_t LONG = 2 * 65536;
static const size_t RECEIVER_SIZES[] = {0, 1, 2, 868, 869, 870, 871, 872, 870 + 256, 2 * 870, 65536 + 870};
static const size_t ANSWER_SIZES[] = {0, 1, 127, 128, 129, 256 + 128, 65536 + 128};
static const size_t REGION_SIZES[] = {0, 1, 870, REGION - 1, REGION, REGION + 1, 2 * REGION, 65536 + REGION};
static const size_t FRAGMENT_SIZES[] = {0, 1, 512, 837, 838, 868, 869};

static std::string good_list() { return write_list({through(updating(0, object(7)))}); }

// A receiver that holds a good list, with bytes cut off or zeros put behind.
static Bytes of_size(size_t size)
{
    Bytes receiver = receiver::holding(good_list());
    receiver.resize(size);
    return receiver;
}

// Fresh receivers and fragments: 1 for any other size of receiver or answer, and nothing else is looked at then.
static void test_lengths()
{
    Dock dock(LONG);
    for (size_t size : RECEIVER_SIZES)
        for (size_t answer_len : ANSWER_SIZES) {
            const bool right = size == 870 && answer_len == ANSWER;
            Bytes receiver = of_size(size);
            check((dock.freshens(receiver, answer_len) == 0) == right, "a fresh receiver of " + std::to_string(size));
            for (size_t fragment : FRAGMENT_SIZES) {
                receiver = of_size(size);
                const uint32_t number = dock.takes(receiver, std::string(fragment, 'x'), answer_len);
                check(number == (!right ? 1 : fragment > 837 ? 26 : 0),
                      "a fragment of " + std::to_string(fragment) + " for a receiver of " + std::to_string(size));
            }
        }
}

static void test_lengths_of_closing()
{
    Dock dock(LONG);
    for (size_t region_len : REGION_SIZES)
        for (size_t size : RECEIVER_SIZES)
            for (size_t answer_len : ANSWER_SIZES) {
                Bytes region = encode(marked()), receiver = of_size(size);
                region.resize(region_len);
                const bool right = region_len == REGION && size == 870 && answer_len == ANSWER;
                check((dock.closes(region, receiver, 1, answer_len) == 0) == right,
                      "closing a receiver of " + std::to_string(size) + " on a region of " + std::to_string(region_len));
                const bool fresh = size == 870 && answer_len == ANSWER;
                check(receiver == (fresh ? receiver::fresh() : of_size(size)), "what is left of the receiver");
            }
}

// Nothing is lent, with a null pointer.
static void test_null()
{
    Lent answer(ANSWER, OLD), held(of_size(870)), region(encode(marked()));
    uint8_t *places = answer.data();
    check(dehlbazin_fresh_receiver(nullptr, 0, places, ANSWER) == 1 && answer.is_filled(0), "no receiver to be made fresh");
    answer.fill(OLD);
    check(dehlbazin_take_fragment(nullptr, 0, held.data(), 5, places, ANSWER) == 1 && answer.is_filled(0), "none for a fragment");
    answer.fill(OLD);
    check(dehlbazin_close_receiver(region.data(), REGION, nullptr, 0, 1, places, ANSWER) == 1 && answer.is_filled(0), "to close");
    check(region.holds(encode(marked())), "closing no receiver changes the region");
    check(dehlbazin_fresh_receiver(held.data(), 870, nullptr, 0) == 1, "a fresh receiver with no answer");
    check(dehlbazin_take_fragment(held.data(), 870, nullptr, 0, nullptr, 0) == 1, "a fragment with no answer");
    check(dehlbazin_close_receiver(region.data(), REGION, held.data(), 870, 1, nullptr, 0) == 1, "closing with no answer");
    check(held.holds(of_size(870)) && region.holds(encode(marked())), "a call with no answer changes something");
    check(dehlbazin_fresh_receiver(nullptr, 0, nullptr, 0) == 1, "a fresh receiver with nothing");
    check(dehlbazin_take_fragment(nullptr, 0, nullptr, 0, nullptr, 0) == 1, "a fragment with nothing");
    check(dehlbazin_close_receiver(nullptr, 0, nullptr, 0, 1, nullptr, 0) == 1, "closing with nothing");
    answer.fill(OLD);
    check(dehlbazin_close_receiver(nullptr, 0, held.data(), 870, 1, places, ANSWER) == 1 && answer.is_filled(0), "with no region");
    check(held.holds(receiver::fresh()), "with no region: no fresh receiver follows");
    check(dehlbazin_take_fragment(held.data(), 870, nullptr, 0, places, ANSWER) == 0 && answer.is_filled(0), "no fragment");
}

// Lengths that a number of 32 bits would take for good ones. The memory can only be read, and is not: it is refused for its length,
// and no page of it is ever made.
static void test_past_32_bits()
{
    const size_t past_32 = size_t(1) << 32, size = past_32 + REGION;
    void *pages = mmap(nullptr, size, PROT_READ, MAP_PRIVATE | MAP_ANONYMOUS | MAP_NORESERVE, -1, 0);
    check(pages != MAP_FAILED, "there are no 4 GiB of addresses for a check");
    if (pages == MAP_FAILED)
        return;
    uint8_t *huge = static_cast<uint8_t *>(pages);
    Lent answer(ANSWER, OLD), receiver(of_size(870)), region(encode(marked()));
    uint8_t *places = answer.data();
    for (size_t few : {0, 1, 5, 837}) {
        check(dehlbazin_take_fragment(receiver.data(), 870, huge, past_32 + few, places, ANSWER) == 26, "4 GiB of a fragment");
        check(receiver.holds(of_size(870)) && answer.is_filled(0), "a fragment that is refused changes the receiver");
    }
    check(dehlbazin_fresh_receiver(huge, past_32 + 870, places, ANSWER) == 1, "4 GiB to be made fresh");
    check(dehlbazin_take_fragment(huge, past_32 + 870, receiver.data(), 5, places, ANSWER) == 1, "4 GiB of a receiver");
    check(dehlbazin_close_receiver(region.data(), REGION, huge, past_32 + 870, 1, places, ANSWER) == 1, "4 GiB to be closed");
    check(region.holds(encode(marked())), "closing 4 GiB changes the region");
    check(dehlbazin_close_receiver(huge, past_32 + REGION, receiver.data(), 870, 1, places, ANSWER) == 1, "4 GiB of a region");
    check(receiver.holds(receiver::fresh()), "closing on 4 GiB leaves no fresh receiver");
    munmap(pages, size);
}

// A fragment is only read, and may be no bytes at a pointer that is not null.
static void test_only_read()
{
    Lent answer(ANSWER, OLD), receiver(870, 0), none(0), fragment(Bytes(300, 0x77));
    fragment.only_read();
    check(dehlbazin_take_fragment(receiver.data(), 870, fragment.data(), 300, answer.data(), ANSWER) == 0, "it is only read");
    check(dehlbazin_take_fragment(receiver.data(), 870, none.data(), 0, answer.data(), ANSWER) == 0, "no bytes at a pointer");
    check(dehlbazin_place(answer.data(), DEHLBAZIN_TAKE_FRAGMENT_HELD) == 300, "300 bytes are held");
    check(receiver.holds(receiver::holding(std::string(300, 0x77))), "the fragment");
}

// The calls with region, receiver, fragment and answer at each of 16 alignments.
static void test_alignment()
{
    const std::string list = good_list();
    Store after = marked();
    answer_of(after, call::prepare(list, 1));
    for (size_t shift = 0; shift < 16; shift++) {
        const std::string what = "at alignment " + std::to_string(shift);
        Bytes room(REGION + 870 + list.size() + ANSWER + 64, 0x77);
        uint8_t *region = room.data() + shift, *receiver = region + REGION + 3 * shift % 16;
        uint8_t *fragment = receiver + 870 + 5 * shift % 16, *answer = fragment + list.size() + 7 * shift % 16;
        const Bytes image = encode(marked());
        std::copy(image.begin(), image.end(), region);
        std::copy(list.begin(), list.end(), fragment);
        const Bytes before = room;
        check(dehlbazin_fresh_receiver(receiver, 870, answer, ANSWER) == 0, what);
        check(dehlbazin_take_fragment(receiver, 870, fragment, 9, answer, ANSWER) == 0, what);
        check(dehlbazin_take_fragment(receiver, 870, fragment + 9, list.size() - 9, answer, ANSWER) == 0, what);
        check(dehlbazin_place(answer, 0) == list.size() && Bytes(receiver, receiver + 870) == receiver::holding(list), what);
        check(dehlbazin_close_receiver(region, REGION, receiver, 870, 1, answer, ANSWER) == 0, what);
        check(dehlbazin_place(answer, 0) == 2 && Bytes(region, region + REGION) == encode(after), what);
        check(Bytes(receiver, receiver + 870) == receiver::fresh(), what);
        std::copy(image.begin(), image.end(), region);
        std::fill_n(receiver, 870, uint8_t(0x77));
        std::fill_n(answer, ANSWER, uint8_t(0x77));
        check(room == before, what + ": bytes beside what is lent");
    }
}

void test_receiver_sizes()
{
    test_lengths();
    test_lengths_of_closing();
    test_null();
    test_past_32_bits();
    test_only_read();
    test_alignment();
}
