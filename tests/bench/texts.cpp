// What the packed table as text costs: writing it, by how many lines there are and by the order in which their names arrived; and
// reading it, beside the same loads by calls of their own. An older archive has neither call, so only the present one is measured.
#include "dice.h"
#include "packed_text.h"
#include "paper.h"
#include "peers.h"
#include "report.h"
#include "sites.h"
#include "trial.h"

#include <algorithm>
#include <cstdlib>
#include <cstring>

static uint8_t record[DEHLBAZIN_ANSWER_SIZE];
static volatile uint8_t sink; // so that no compiler leaves the putting back out

// Nothing is measured that is not done.
static void must(bool done)
{
    if (!done)
        std::abort();
}

static Timed without(const Timed &all, const Timed &part) { return {all.least - part.least, all.middle - part.least}; }

// ---- regions

// The 256 names of 64 bytes that share 61, by their place in byte order.
static const std::vector<std::string> &sorted_names()
{
    static const std::vector<std::string> names = [] {
        std::vector<std::string> all;
        for (size_t n = 0; n < MOST_NAMES; n++)
            all.push_back(apart_name(n));
        std::sort(all.begin(), all.end());
        return all;
    }();
    return names;
}

// The places in the order of a shuffle, always the same.
static const std::vector<size_t> &shuffled_places()
{
    static const std::vector<size_t> places = [] {
        std::vector<size_t> all;
        Dice dice(7);
        for (size_t n = 0; n < MOST_NAMES; n++) {
            all.push_back(n);
            std::swap(all[n], all[dice.below(n + 1)]);
        }
        return all;
    }();
    return places;
}

static std::string rising_name(size_t n) { return sorted_names()[n]; }
static std::string falling_name(size_t n) { return sorted_names()[MOST_NAMES - 1 - n]; }
static std::string shuffled_name(size_t n) { return sorted_names()[shuffled_places()[n]]; }

// The usual region has no packed values: here each of its names but HEAD has one.
static Bytes usual_packed()
{
    Site site(usual_site());
    for (size_t n = 1; n < USUAL_NAMES; n++)
        site.done(call::load_packed(n, OBJECT, 4000 + n));
    return site.region();
}

struct Sample {
    const char *what;
    Bytes region;
};

static std::vector<Sample> samples()
{
    return {{"empty", empty_site()},
            {"usual", usual_packed()},
            {"full, names that rise", full_site(MOST_LINES, rising_name)},
            {"full, names that fall", full_site(MOST_LINES, falling_name)},
            {"full, names shuffled", full_site(MOST_LINES, shuffled_name)}};
}

static std::string text_of(const Bytes &region) { return packed_text::text_of(*decode(region)); }

static size_t lines_of(const std::string &text) { return size_t(std::count(text.begin(), text.end(), '\n')); }

// ---- the calls

static uint32_t look(const Bytes &region)
{
    return dehlbazin_read_row(region.data(), region.size(), LOOK.a, record, sizeof record);
}

static uint32_t write(const Bytes &region, std::string &buffer)
{
    uint8_t *bytes = reinterpret_cast<uint8_t *>(buffer.data());
    return dehlbazin_write_packed(region.data(), region.size(), bytes, buffer.size(), record, sizeof record);
}

static uint32_t read(Bytes &region, const std::string &text)
{
    const uint8_t *bytes = reinterpret_cast<const uint8_t *>(text.data());
    return dehlbazin_read_packed(region.data(), region.size(), bytes, text.size(), record, sizeof record);
}

// A line of a text, as two calls take it.
struct Load {
    std::string name;
    uint64_t object;
};

static std::vector<Load> loads_of(const std::string &text)
{
    std::vector<Load> loads;
    for (size_t at = 0; at < text.size();) {
        const size_t end = text.find('\n', at), name = at + packed_text::DIGITS + 1;
        loads.push_back({text.substr(name, end - name), std::strtoull(text.substr(at + 24, 16).c_str(), nullptr, 16)});
        at = end + 1;
    }
    return loads;
}

// Each name is added, or found, and its value loaded.
static bool load(Bytes &region, const std::vector<Load> &loads)
{
    for (const Load &one : loads) {
        const uint8_t *name = reinterpret_cast<const uint8_t *>(one.name.data());
        if (dehlbazin_add_name(region.data(), region.size(), name, one.name.size(), record, sizeof record) != DEHLBAZIN_DONE)
            return false;
        const uint64_t number = dehlbazin_place(record, DEHLBAZIN_ADD_NAME_NUMBER);
        if (dehlbazin_load_packed(region.data(), region.size(), number, DEHLBAZIN_KIND_OBJECT, one.object, record,
                                  sizeof record) != DEHLBAZIN_DONE)
            return false;
    }
    return true;
}

// ---- the tables

// The writer by hand is that of tests/cpp, on a store that was read from the region already; the whole call by hand reads it too.
static void print_writing(const Sample &sample)
{
    const std::string text = text_of(sample.region);
    std::string buffer(DEHLBAZIN_PACKED_TEXT_MOST_BYTES, 'x');
    const Call call = call::write_packed(buffer);
    const Store store = *decode(sample.region);
    Bytes left;
    must(write(sample.region, buffer) == DEHLBAZIN_DONE && buffer.compare(0, text.size(), text) == 0);
    must(dehlbazin_place(record, DEHLBAZIN_WRITE_PACKED_LENGTH) == text.size() && call_by_hand(sample.region, call, left) == 0);
    const std::vector<Timed> timed = measure({[&] { look(sample.region); }, [&] { write(sample.region, buffer); },
                                              [&] { sink = uint8_t(packed_text::text_of(store).size()); },
                                              [&] { call_by_hand(sample.region, call, left); }});
    print_row({sample.what, std::to_string(lines_of(text)), std::to_string(text.size()), time_text(timed[0].least),
               time_text(timed[1].least), time_text(timed[1].least - timed[0].least), time_text(timed[2].least),
               time_text(timed[3].least), ratio_text(timed[1].least / timed[3].least), percent_text(timed[1].spread())});
}

// The loads by calls leave the same region, if every packed value that is there has a line.
static void print_reading(const std::string &what, const Bytes &region, const std::string &text)
{
    const std::vector<Load> loads = loads_of(text);
    const Call call = call::read_packed(text);
    Bytes now = region, left;
    must(read(now, text) == DEHLBAZIN_DONE && dehlbazin_place(record, DEHLBAZIN_READ_PACKED_REFS) == loads.size());
    const Bytes after = now;
    must(call_by_hand(region, call, left) == 0 && left == after);
    now = region;
    must(load(now, loads) && now == after);
    auto put_back = [&] {
        std::memcpy(now.data(), region.data(), now.size());
        sink = now[20];
    };
    const std::vector<Timed> timed =
        measure({put_back, [&] { put_back(), look(now); }, [&] { put_back(), read(now, text); },
                 [&] { put_back(), sink = load(now, loads); }, [&] { call_by_hand(region, call, left); }});
    const Timed test = without(timed[1], timed[0]), took = without(timed[2], timed[0]), loaded = without(timed[3], timed[0]);
    print_row({what, std::to_string(loads.size()), std::to_string(text.size()), time_text(test.least), time_text(took.least),
               time_text(loaded.least), loads.empty() ? "" : ratio_text(took.least / loaded.least), time_text(timed[4].least),
               ratio_text(took.least / timed[4].least), percent_text(took.spread())});
}

void print_texts()
{
    const std::vector<Sample> all = samples();
    print_title("Writing the packed table as text");
    print_head({"region", "lines", "bytes", "the test alone", "write_packed", "less the test", "writer by hand", "call by hand",
                "now / by hand", "spread"});
    for (const Sample &sample : all)
        print_writing(sample);
    print_title("Reading the packed table's text, beside the same loads by add_name and load_packed");
    print_head({"region", "lines", "bytes", "the test alone", "read_packed", "the loads by calls", "read / loads", "call by hand",
                "now / by hand", "spread"});
    for (const Sample &sample : all)
        print_reading(std::string(sample.what) + ", its own text", sample.region, text_of(sample.region));
    for (size_t i : {1, 2})
        print_reading(std::string("empty, the text of: ") + all[i].what, all[0].region, text_of(all[i].region));
}
