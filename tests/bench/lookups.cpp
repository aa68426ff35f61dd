// Adding names that begin alike, and names that end alike: how many bytes the lookup compares from the front and from the back, and what
// add_name takes.
#include "paper.h"
#include "report.h"
#include "sites.h"
#include "trial.h"

#include <algorithm>
#include <cstdio>

// ---- names: 256 of a kind have the same length, and differ in three digits, at the end or in the first component behind refs/

static std::string digits(size_t n)
{
    return {char('0' + n / 100 % 10), char('0' + n / 10 % 10), char('0' + n % 10)};
}

static std::string ends_apart(size_t n) { return "refs/heads/site-" + digits(n); }
static std::string begins_apart(size_t n) { return "refs/" + digits(n) + "/heads/site"; }

static std::string long_ends_apart(size_t n)
{
    static const char shared[] = "refs/tags/warehouse-north/hall-two/level-three/racking-aisle-";
    static_assert(sizeof shared == 61 + 1);
    return shared + digits(n);
}

static std::string long_begins_apart(size_t n)
{
    static const char shared[] = "/tags/warehouse-north/hall-two/level-three/racking-aisle";
    static_assert(sizeof shared == 56 + 1);
    return "refs/" + digits(n) + shared;
}

static std::vector<std::string> names_of(Namer name_of)
{
    std::vector<std::string> names;
    for (size_t n = 0; n < MOST_NAMES; n++)
        names.push_back(name_of(n));
    return names;
}

// ---- counting

// What telling pairs of names apart takes: bytes compared one by one, until two differ.
struct Count {
    size_t pairs = 0, front = 0, back = 0;
};

template <class Iterator> static size_t until_differs(Iterator a, Iterator end, Iterator b)
{
    const auto differs = std::mismatch(a, end, b).first;
    return size_t(differs - a) + (differs == end ? 0 : 1);
}

// Names of different lengths are told apart by their lengths, and no byte is compared.
static void add_pair(Count &count, const std::string &a, const std::string &b)
{
    count.pairs++;
    if (a.size() != b.size())
        return;
    count.front += until_differs(a.begin(), a.end(), b.begin());
    count.back += until_differs(a.rbegin(), a.rend(), b.rbegin());
}

// The lookups of the names from first on, each among those before it. None is found.
static Count lookups(const std::vector<std::string> &names, size_t first)
{
    Count count;
    for (size_t n = first; n < names.size(); n++)
        for (size_t m = 0; m < n; m++)
            add_pair(count, names[n], names[m]);
    return count;
}

// The mark of a name, as crates/rules has it. The region's test compares the bytes of two names only if they have one mark.
static uint64_t mark(const std::string &name)
{
    uint64_t acc = 0;
    for (char c : name)
        acc = acc % 4294967296 * 257 + uint8_t(c);
    return acc;
}

static size_t pairs_of_one_mark(const std::vector<std::string> &names)
{
    size_t pairs = 0;
    for (size_t n = 0; n < names.size(); n++)
        for (size_t m = 0; m < n; m++)
            pairs += mark(names[n]) == mark(names[m]);
    return pairs;
}

// ---- the table

static void print_trial(const std::string &what, const Trial &trial, const Count &count)
{
    const Result r = run(trial);
    std::vector<std::string> row = {what, trial.what};
    for (size_t number : {count.pairs, count.front, count.back})
        row.push_back(std::to_string(number));
    add_own(row, r.before, r.now);
    row.push_back(percent_text(r.now.spread()));
    print_row(row);
}

static void print_kind(const std::string &what, const std::vector<std::string> &names)
{
    std::vector<Call> all;
    Site site(DEHLBAZIN_SETTING_NORMAL);
    const Bytes empty = site.region();
    for (const std::string &name : names) {
        all.push_back(call::add_name(name));
        if (all.size() < names.size())
            site.done(all.back());
    }
    print_trial(what, {"add_name, all 256 together", empty, all}, lookups(names, 0));
    print_trial(what, {"add_name, the last", site.region(), {all.back()}}, lookups(names, names.size() - 1));
    print_trial(what, {"the test alone, before the last", site.region(), {LOOK}}, {});
}

void print_lookups()
{
    print_title("Adding 256 names of one length: bytes that the lookup compares, and time");
    std::vector<std::string> head = {"names", "calls", "pairs", "from the front", "from the back"};
    add_own_columns(head);
    head.push_back("spread");
    print_head(head);
    const std::vector<std::pair<const char *, Namer>> kinds = {{"`refs/heads/site-000`", ends_apart},
                                                               {"`refs/000/heads/site`", begins_apart},
                                                               {"64 bytes, the first 61 shared", long_ends_apart},
                                                               {"64 bytes, the last 56 shared", long_begins_apart}};
    size_t marked = 0;
    for (const auto &[what, name_of] : kinds) {
        const std::vector<std::string> names = names_of(name_of);
        print_kind(what, names);
        marked += pairs_of_one_mark(names);
    }
    std::printf("\nPairs of names with one mark, whose bytes the region's test compares too: %zu.\n", marked);
}
