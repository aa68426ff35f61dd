// Texts and buffers of sizes that a shorter number would take for others, memory that can only be read, null pointers, and pointers
// without alignment. That region and answer have the right sizes is asked for with the other calls.
#include "dehlbazin.h"
#include "samples.h"
#include "tests.h"
#include "text_samples.h"
#include "world.h"

#include <algorithm>
#include <sys/mman.h>

using namespace texts;

static const uint8_t OLD = 0xEE;

// 4 GiB, and as much as a region more. Only the first bytes can be written, as many as a region has; of the pages behind them none
// is made before it is read.
class Huge {
public:
    static constexpr size_t PAST_32 = size_t(1) << 32;

    Huge()
    {
        void *got = mmap(nullptr, SIZE, PROT_READ, MAP_PRIVATE | MAP_ANONYMOUS | MAP_NORESERVE, -1, 0);
        if (got != MAP_FAILED && mprotect(got, REGION, PROT_READ | PROT_WRITE) == 0)
            pages = static_cast<uint8_t *>(got);
        check(pages != nullptr, "there are no 4 GiB of addresses for a check");
    }
    ~Huge()
    {
        if (pages)
            munmap(pages, SIZE);
    }
    Huge(const Huge &) = delete;
    Huge &operator=(const Huge &) = delete;

    uint8_t *data() const { return pages; }
    template <typename Some> void begin_with(const Some &bytes)
    {
        std::fill_n(pages, REGION, OLD);
        std::copy(bytes.begin(), bytes.end(), pages);
    }

private:
    static constexpr size_t SIZE = PAST_32 + REGION;
    uint8_t *pages = nullptr;
};

// A text of which 32 bits of the length would leave nothing, or a line that is read. The whole has a malformed line behind that.
static void test_text_past_32_bits()
{
    Huge huge;
    if (!huge.data())
        return;
    const std::string line = ref(1, "refs/x");
    huge.begin_with(line + "x\n");
    Lent region(encode(busy())), record(ANSWER, OLD);
    for (size_t few : {size_t(0), line.size()}) {
        const size_t size = Huge::PAST_32 + few;
        check(dehlbazin_read_packed(region.data(), REGION, huge.data(), size, record.data(), ANSWER) == 27, "4 GiB of a text");
        check(dehlbazin_place(record.data(), DEHLBAZIN_MALFORMED_LINE_NUMBER) == 2, "4 GiB of a text: the second line");
        check(region.holds(encode(busy())), "4 GiB of a text change the region");
    }
}

// A buffer of which 32 bits of the length would leave no room, or too little.
static void test_buffer_past_32_bits()
{
    Huge huge;
    if (!huge.data())
        return;
    const std::string text = text_of_shelves();
    Lent region(encode(shelves())), record(ANSWER, OLD);
    for (size_t few : {size_t(0), size_t(1), text.size() - 1}) {
        huge.begin_with(Bytes());
        const size_t size = Huge::PAST_32 + few;
        check(dehlbazin_write_packed(region.data(), REGION, huge.data(), size, record.data(), ANSWER) == 0, "4 GiB of a buffer");
        check(dehlbazin_place(record.data(), DEHLBAZIN_WRITE_PACKED_LENGTH) == 180, "4 GiB of a buffer: the length");
        check(std::string(huge.data(), huge.data() + 181) == text + char(OLD), "4 GiB of a buffer: the text");
    }
}

// And a region, of which 32 bits of the length are the right ones.
static void test_region_past_32_bits()
{
    Huge huge;
    if (!huge.data())
        return;
    const Bytes good = encode(shelves());
    const size_t size = Huge::PAST_32 + REGION;
    huge.begin_with(good);
    Lent buffer(200, OLD), record(ANSWER, OLD);
    check(dehlbazin_read_packed(huge.data(), size, nullptr, 0, record.data(), ANSWER) == 1, "a region of 4 GiB, to be read in");
    check(record.is_filled(0), "a region of 4 GiB: the record");
    record.fill(OLD);
    check(dehlbazin_write_packed(huge.data(), size, buffer.data(), 200, record.data(), ANSWER) == 1, "4 GiB, to be written");
    check(record.is_filled(0) && buffer.is_filled(OLD), "a region of 4 GiB: the record and the buffer");
    check(Bytes(huge.data(), huge.data() + REGION) == good, "a region of 4 GiB is changed");
}

// A text is only read. It may be no bytes at a pointer that is not null, and so may a buffer.
static void test_only_read()
{
    const std::string text = text_of_shelves();
    Lent region(encode(busy())), record(ANSWER, OLD), lent(Bytes(text.begin(), text.end())), none(0);
    lent.only_read();
    check(dehlbazin_read_packed(region.data(), REGION, lent.data(), lent.size(), record.data(), ANSWER) == 0, "it is only read");
    check(dehlbazin_place(record.data(), DEHLBAZIN_READ_PACKED_REFS) == 3, "three refs are read");
    check(dehlbazin_write_packed(region.data(), REGION, none.data(), 0, record.data(), ANSWER) == 32, "too short at a pointer");
    check(dehlbazin_read_packed(region.data(), REGION, none.data(), 0, record.data(), ANSWER) == 0, "no text at a pointer");
    check(dehlbazin_write_packed(region.data(), REGION, none.data(), 0, record.data(), ANSWER) == 0, "no buffer at a pointer");
    check(record.is_filled(0), "nothing is packed any more");
}

static void test_null()
{
    Lent region(encode(shelves())), record(ANSWER, OLD);
    check(dehlbazin_write_packed(region.data(), REGION, nullptr, 0, record.data(), ANSWER) == 32, "no buffer");
    check(record.is_filled(0) && region.holds(encode(shelves())), "no buffer: the record and the region");
    check(dehlbazin_write_packed(region.data(), REGION, nullptr, 0, nullptr, 0) == 1, "neither buffer nor record");
    check(dehlbazin_read_packed(region.data(), REGION, nullptr, 0, nullptr, 0) == 1, "neither text nor record");
    check(region.holds(encode(shelves())), "a call with no record changes the region");
    check(dehlbazin_read_packed(region.data(), REGION, nullptr, 0, record.data(), ANSWER) == 0 && record.is_filled(0), "no text");
    Store after = shelves();
    for (Entry &entry : after.entries)
        entry.packed = 0;
    check(region.holds(encode(after)), "no text is an empty table");
    check(dehlbazin_write_packed(nullptr, 0, nullptr, 0, nullptr, 0) == 1, "a text written with nothing");
    check(dehlbazin_read_packed(nullptr, 0, nullptr, 0, nullptr, 0) == 1, "a text read with nothing");
}

// Region, text, buffer and answer at each of 16 alignments.
static void test_alignment()
{
    const std::string text = text_of_shelves();
    Store after = busy();
    answer_of(after, call::read_packed(text));
    for (size_t shift = 0; shift < 16; shift++) {
        const std::string what = "at alignment " + std::to_string(shift);
        Bytes room(REGION + 2 * text.size() + ANSWER + 64, 0x77);
        uint8_t *region = room.data() + shift, *lines = region + REGION + 3 * shift % 16;
        uint8_t *buffer = lines + text.size() + 5 * shift % 16, *answer = buffer + text.size() + 7 * shift % 16;
        const Bytes image = encode(busy());
        std::copy(image.begin(), image.end(), region);
        std::copy(text.begin(), text.end(), lines);
        const Bytes before = room;
        check(dehlbazin_read_packed(region, REGION, lines, text.size(), answer, ANSWER) == 0, what);
        check(dehlbazin_place(answer, 0) == 3 && Bytes(region, region + REGION) == encode(after), what);
        check(dehlbazin_write_packed(region, REGION, buffer, text.size(), answer, ANSWER) == 0, what);
        check(dehlbazin_place(answer, 0) == text.size() && std::string(buffer, buffer + text.size()) == text, what);
        std::copy(image.begin(), image.end(), region);
        std::fill_n(buffer, text.size(), uint8_t(0x77));
        std::fill_n(answer, ANSWER, uint8_t(0x77));
        check(room == before, what + ": bytes beside what is lent");
    }
}

void test_packed_sizes()
{
    test_text_past_32_bits();
    test_buffer_past_32_bits();
    test_region_past_32_bits();
    test_only_read();
    test_null();
    test_alignment();
}
