// Packed tables' texts with each byte changed to every other value, with each byte left out or doubled, with each line left out,
// doubled or moved, and cut at every length. The archive and our own reader agree on the number, the line and every byte of the
// region.
#include "samples.h"
#include "share.h"
#include "tally.h"
#include "tests.h"
#include "text_samples.h"
#include "world.h"

#include <algorithm>

using namespace texts;

// A text, and a store to read it in.
struct Sample {
    const char *what;
    Store store;
    std::string text;
};

// Few names are known, so that many changes of a byte make a new one; or 256 are, so that they make one too many.
static std::vector<Sample> samples()
{
    Store full = shelves();
    for (const Entry &entry : plain(251).entries)
        full.entries.push_back(entry);
    const std::string mixed =
        "#\n" + ref(~uint64_t(0), "refs/a") + peeled('e') + "#^\n" + ref(10, "refs/a/b") + ref(0xabc, "refs/a0");
    return {{"the example", shelves(), text_of_shelves()},
            {"git's example", shelves(), text_by_git()},
            {"a text of all lines", Store{}, mixed},
            {"the example, with no room for names", full, text_of_shelves()}};
}

// Reads the text in this store, whatever the world was before.
static uint32_t read_one(World &world, const Store &store, const std::string &text, Tally &tally)
{
    world.is_now(store);
    world.agrees(call::read_packed(text));
    tally.add(world.number());
    return world.number();
}

static void test_every_byte(const Sample &sample, Tally &tally)
{
    share_out(sample.text.size(), [&](size_t first, size_t end) {
        World world(sample.store);
        for (size_t at = first; at < end; at++) {
            about(std::string("byte ") + std::to_string(at) + " of " + sample.what + " changed");
            for (unsigned change = 1; change < 256; change++) {
                std::string text = sample.text;
                text[at] = char(text[at] ^ char(change));
                read_one(world, sample.store, text, tally);
            }
        }
    });
}

static void test_every_length(const Sample &sample, Tally &tally)
{
    World world(sample.store);
    about(std::string("another length of ") + sample.what);
    for (size_t size = 0; size <= sample.text.size(); size++) {
        const std::string cut = sample.text.substr(0, size);
        read_one(world, sample.store, cut, tally);
        read_one(world, sample.store, cut + "\n", tally);
        read_one(world, sample.store, sample.text.substr(size), tally);
    }
    for (size_t at = 0; at < sample.text.size(); at++) {
        std::string less = sample.text, more = sample.text;
        less.erase(at, 1);
        more.insert(at, 1, more[at]);
        read_one(world, sample.store, less, tally);
        read_one(world, sample.store, more, tally);
    }
    for (unsigned byte = 0; byte < 256; byte++) {
        read_one(world, sample.store, sample.text + char(byte), tally);
        read_one(world, sample.store, char(byte) + sample.text, tally);
    }
}

static std::vector<std::string> lines_of(const std::string &text)
{
    std::vector<std::string> lines;
    for (size_t at = 0; at < text.size();) {
        const size_t end = text.find('\n', at) + 1;
        lines.push_back(text.substr(at, end - at));
        at = end;
    }
    return lines;
}

// Each line left out, doubled, and put before each other.
static void test_every_line(const Sample &sample, Tally &tally)
{
    World world(sample.store);
    about(std::string("other lines of ") + sample.what);
    const std::vector<std::string> lines = lines_of(sample.text);
    auto joined = [](const std::vector<std::string> &some) {
        std::string text;
        for (const std::string &line : some)
            text += line;
        return text;
    };
    for (size_t x = 0; x < lines.size(); x++) {
        std::vector<std::string> less = lines;
        less.erase(less.begin() + long(x));
        read_one(world, sample.store, joined(less), tally);
        for (size_t y = 0; y <= lines.size(); y++) {
            std::vector<std::string> doubled = lines, moved = less;
            doubled.insert(doubled.begin() + long(y), lines[x]);
            moved.insert(moved.begin() + long(std::min(y, less.size())), lines[x]);
            read_one(world, sample.store, joined(doubled), tally);
            read_one(world, sample.store, joined(moved), tally);
        }
    }
}

// Of the widest text one bit of a byte, and it alone, in places that wander; and some lengths.
static void test_widest(Tally &tally)
{
    const std::string whole = widest_text();
    Store store = widest(3);
    store.entries.resize(250); // of the names that are missing the text adds some
    const size_t step = 11;
    share_out(whole.size() / step, [&](size_t first, size_t end) {
        World world(store);
        for (size_t i = first; i < end; i++) {
            const size_t at = i * step;
            about("byte " + std::to_string(at) + " of the widest text");
            std::string text = whole;
            text[at] = char(text[at] ^ char(1 << i % 8));
            read_one(world, store, text, tally);
            if (i % 16 == 0)
                read_one(world, store, whole.substr(0, at), tally);
        }
    });
}

void test_packed_changed()
{
    Tally tally;
    for (const Sample &sample : samples()) {
        World world(sample.store);
        check(read_one(world, sample.store, sample.text, tally) == 0, std::string(sample.what) + " is refused");
        test_every_byte(sample, tally);
        test_every_length(sample, tally);
        test_every_line(sample, tally);
    }
    test_widest(tally);
    about("");
    tally.all_met("reading changed texts", {0, 19, 21, 27});
    check(tally.given[0] > 1000, "few changed texts are read");
}
