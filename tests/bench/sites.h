// The stores that are measured. Calls alone make them, and each of these calls must be done, so that every region here is one that
// a caller can have.
#pragma once

#include "archive.h"
#include "image.h"
#include "samples.h"

// A region that is led on by calls.
class Site {
public:
    explicit Site(uint64_t setting);
    explicit Site(const Bytes &region) : bytes(region) {}

    // The call must be done. Gives the first place of its answer.
    uint64_t done(const Call &call);

    // Prepares the edits, and commits them.
    void moves(const std::vector<Edit> &edits, uint64_t mode);

    const Bytes &region() const { return bytes; }

private:
    Bytes bytes;
};

// The region after one more call.
Bytes after(const Bytes &region, const Call &call);

// The n-th name of 64 bytes. Of the first kind two names share 61 bytes and end in other ones. Of the second kind, which is hard to
// tell apart, they share the first 54 bytes and the last 8.
using Namer = std::string (*)(size_t n);
std::string apart_name(size_t n);
std::string hard_name(size_t n);

// Names of which the first ones are chains: five each, four links and an object behind them.
constexpr size_t LINKS = 4;
constexpr size_t CHAIN = LINKS + 1;

// One edit of the first name of each chain, through its links.
std::vector<Edit> chain_moves(size_t chains);
std::vector<Edit> chain_deletes(size_t chains);

// A site of such names, with setting 1, under which none of them gets a line unless an edit forces it.
class Racks {
public:
    explicit Racks(Namer namer) : site(1), name_of(namer) {}

    // More names, up to so many, each with an object as loose and as packed value.
    void grow(size_t names);

    // The first names become chains.
    void link_chains(size_t chains);

    // So many lines more, shared out among the names from first to end.
    void log(size_t first, size_t end, size_t lines);

    // A forced move through every chain: a line for each of its names.
    void log_chains(size_t chains);

    const Bytes &region() const { return site.region(); }

private:
    Site site;
    Namer name_of;
    size_t names = 0;
    uint64_t next_object = 1;
};

// Nothing but a setting.
Bytes empty_site();

// 40 names, of which HEAD links to the second, and 300 lines.
constexpr size_t USUAL_NAMES = 40;
std::string usual_name(size_t n);
Bytes usual_site();

// 256 names, 32 chains among them, and so many lines of the other 96.
Bytes full_site(size_t lines, Namer namer = apart_name);

// 256 names, and 1,024 lines of the last 32 of them.
Bytes logged_site();

// 256 names, and 960 lines of the 32 chains, six for each of their names.
Bytes logged_chains_site();
