// A backup of a site's packed layouts, and its return. The backup is the packed table as text, which git reads too. In the night
// one layout is overwritten, one is lost, and a stray one comes in. The first copy of the backup that is brought back was cut off
// on its way: it is refused with the number of the line, and nothing changes. The next is whole. At last it is read on a spare
// machine, which knows none of the names.
// Run it with: bash tools/example backup
#include "dehlbazin.hpp"

#include <cstdio>

using namespace dehlbazin;
using Layout = ObjectNumber;

static Region region, spare; // the store, and that of the spare machine

static void print_aisles(const Store &store)
{
    for (const Name &name : store.names())
        std::printf("  %-20.*s %s\n", int(name.bytes.size()), name.bytes.data(),
                    to_string(store.read_name(name.number).value()).c_str());
}

// All of the text is taken, or none of it.
static void bring_back(Store &store, std::string_view text)
{
    const auto refs = store.read_packed(text);
    if (const Refusal *refusal = refs.refusal())
        std::printf("%u bytes: refused with number %u, %s, line %u\n", unsigned(text.size()), unsigned(refusal->number()),
                    refusal->reason_name(), unsigned(refusal->line_number().value_or(0)));
    else
        std::printf("%u bytes: %u refs are read\n", unsigned(text.size()), unsigned(*refs.get()));
}

static void run()
{
    Store store = Store::start(region, Setting::normal).value();
    const NameNumber aisle7 = store.add_name("refs/heads/aisle-7").value();
    const NameNumber tag = store.add_name("refs/tags/2026-11").value();
    const NameNumber aisle10 = store.add_name("refs/heads/aisle-10").value();
    store.load_packed(aisle7, Layout{4102}).value();
    store.load_packed(tag, Layout{65537}).value();
    store.load_packed(aisle10, Layout{255}).value();
    store.load_loose(aisle7, Target::object(Layout{4103})).value(); // moved since it was packed

    const std::string backup = store.packed_text().value();
    std::printf("the backup, %u bytes:\n%s", unsigned(backup.size()), backup.c_str());

    // The night.
    store.load_packed(aisle10, Layout{1}).value();
    store.load_packed(tag, std::nullopt).value();
    store.load_packed(store.add_name("refs/heads/stray").value(), Layout{2}).value();
    std::printf("in the morning:\n");
    print_aisles(store);

    // What was loose stays, and what the backup does not have is packed no more.
    bring_back(store, std::string_view(backup).substr(0, 100));
    bring_back(store, backup);
    print_aisles(store);
    std::printf("a new backup is %s\n", store.packed_text().value() == backup ? "the same" : "another");

    Store other = Store::start(spare, Setting::normal).value();
    std::printf("on the spare machine:\n");
    bring_back(other, backup);
    print_aisles(other);
}

int main()
{
    try {
        run();
    } catch (const Refused &refused) {
        std::fprintf(stderr, "%s\n", refused.what());
        return 1;
    }
}
