#include "sites.h"

#include <algorithm>
#include <cstdio>
#include <cstdlib>

// ---- a site

Site::Site(uint64_t setting) : bytes(REGION) { done(call::start(setting)); }

uint64_t Site::done(const Call &call)
{
    uint8_t record[DEHLBAZIN_ANSWER_SIZE];
    uint32_t number = make(NOW, call, bytes.data(), record);
    if (number != DEHLBAZIN_DONE) {
        std::fprintf(stderr, "bench: a site cannot be made: %s gives %u\n", describe(call).c_str(), number);
        std::exit(1);
    }
    return dehlbazin_place(record, 0);
}

void Site::moves(const std::vector<Edit> &edits, uint64_t mode)
{
    done(call::prepare(write_list(edits), mode));
    done(call::commit(7, ~uint64_t(0)));
}

Bytes after(const Bytes &region, const Call &call)
{
    Site site(region);
    site.done(call);
    return site.region();
}

// ---- names

static const char DIGITS[] = "ABCDEFGHIJKLMNOPQRSTUVWXYZabcdefghijklmnopqrstuvwxyz0123456789-_";

#define SHARED_54 "refs/tags/warehouse-north/hall-two/level-three/racking"

std::string apart_name(size_t n)
{
    static const char shared[] = SHARED_54 "-aisle-";
    static_assert(sizeof shared == 61 + 1);
    return std::string(shared) + DIGITS[n / 4096] + DIGITS[n / 64 % 64] + DIGITS[n % 64];
}

std::string hard_name(size_t n)
{
    static const char shared[] = SHARED_54, end[] = "-layouts";
    static_assert(sizeof shared == 54 + 1 && sizeof end == 8 + 1);
    return std::string(shared) + DIGITS[n / 16] + DIGITS[n % 16] + end;
}

std::string usual_name(size_t n) { return n == 0 ? "HEAD" : "refs/heads/aisle-" + std::to_string(n); }

// ---- chains

static uint16_t first_of(size_t chain) { return uint16_t(CHAIN * chain); }

std::vector<Edit> chain_moves(size_t chains)
{
    std::vector<Edit> edits;
    for (size_t chain = 0; chain < chains; chain++)
        edits.push_back(through(updating(first_of(chain), object(1000000 + chain))));
    return edits;
}

std::vector<Edit> chain_deletes(size_t chains)
{
    std::vector<Edit> edits;
    for (size_t chain = 0; chain < chains; chain++)
        edits.push_back(through(deleting(first_of(chain))));
    return edits;
}

// ---- names in numbers

void Racks::grow(size_t most)
{
    std::vector<Edit> edits;
    while (names < most) {
        site.done(call::add_name(name_of(names)));
        edits.push_back(updating(uint16_t(names++), object(next_object++)));
        if (edits.size() == MOST_EDITS || names == most) {
            site.moves(edits, DEHLBAZIN_MODE_UPDATES);
            edits.clear();
        }
    }
}

void Racks::link_chains(size_t chains)
{
    for (size_t link_at = 0; link_at < LINKS; link_at++) {
        std::vector<Edit> edits;
        for (size_t chain = 0; chain < chains; chain++) {
            uint16_t name = uint16_t(first_of(chain) + link_at);
            edits.push_back(updating(name, link(name + 1)));
        }
        site.moves(edits, DEHLBAZIN_MODE_DELETIONS);
    }
}

void Racks::log(size_t first, size_t end, size_t lines)
{
    for (size_t at = first; lines > 0;) {
        std::vector<Edit> edits;
        while (edits.size() < std::min(MOST_EDITS, lines) && at + edits.size() < end)
            edits.push_back(forced(updating(uint16_t(at + edits.size()), object(next_object++))));
        site.moves(edits, DEHLBAZIN_MODE_UPDATES);
        lines -= edits.size();
        at = at + edits.size() == end ? first : at + edits.size();
    }
}

void Racks::log_chains(size_t chains)
{
    std::vector<Edit> edits;
    for (Edit edit : chain_moves(chains)) {
        edit.new_target = object(next_object++);
        edits.push_back(forced(edit));
    }
    site.moves(edits, DEHLBAZIN_MODE_UPDATES);
}

// ---- sites

Bytes empty_site() { return Site(DEHLBAZIN_SETTING_NORMAL).region(); }

Bytes usual_site()
{
    Site site(DEHLBAZIN_SETTING_NORMAL);
    for (size_t n = 0; n < USUAL_NAMES; n++)
        site.done(call::add_name(usual_name(n)));
    site.done(call::load_loose(0, LINK, 1));
    for (uint64_t round = 1; round <= 10; round++) {
        std::vector<Edit> edits;
        for (uint16_t n = 1; n <= 30; n++)
            edits.push_back(updating(n, object(100 * round + n)));
        site.moves(edits, DEHLBAZIN_MODE_DELETIONS);
    }
    return site.region();
}

Bytes full_site(size_t lines, Namer namer)
{
    Racks racks(namer);
    racks.grow(MOST_NAMES);
    racks.link_chains(MOST_EDITS);
    racks.log(MOST_ROWS, MOST_NAMES, lines);
    return racks.region();
}

Bytes logged_site()
{
    Racks racks(apart_name);
    racks.grow(MOST_NAMES);
    racks.log(MOST_NAMES - MOST_EDITS, MOST_NAMES, MOST_LINES);
    return racks.region();
}

Bytes logged_chains_site()
{
    Racks racks(apart_name);
    racks.grow(MOST_NAMES);
    racks.link_chains(MOST_EDITS);
    for (size_t round = 0; round < MOST_LINES / MOST_ROWS; round++)
        racks.log_chains(MOST_EDITS);
    return racks.region();
}
