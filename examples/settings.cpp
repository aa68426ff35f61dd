// A site's settings, kept between runs: the site writes its record, an older reader refuses it by name, a newer one reads it, a
// store is started with it, and the night shift moves a layout under the number that the record has for it.
// Run it with: bash tools/example settings
#include "dehlbazin.hpp"

#include <cstdio>

using namespace dehlbazin;
using Layout = ObjectNumber;

static Region region;       // the store
static SettingsBuffer file; // what the site keeps, as it would in a file

static std::string text(std::string_view bytes) { return std::string(bytes); }

// Site 7 has two committers. They are added by rising number.
static size_t write_settings()
{
    Settings settings(Setting::normal, Mode::deletions, SiteNumber{7});
    settings.add_committer(Committer{12}, "planner").value();
    settings.add_committer(Committer{40}, "night shift").value();

    const auto first = settings.write(file, SettingsVersion::first); // which has no place for a site
    std::printf("version 1: %s\n", first.refusal()->reason_name());
    const size_t size = settings.write(file, SettingsVersion::second).value();
    std::printf("version 2: %u bytes\n", unsigned(size));
    return size;
}

// The number of a name in the record; none where the site has no such committer.
static std::optional<Committer> find(const SettingsView &settings, std::string_view name)
{
    for (const SiteCommitter &committer : settings.committers())
        if (committer.name == name)
            return committer.number;
    return std::nullopt;
}

// The name of a number. It stands in the record itself.
static std::string_view name_of(const SettingsView &settings, Committer number)
{
    for (const SiteCommitter &committer : settings.committers())
        if (committer.number == number)
            return committer.name;
    return "somebody else";
}

static void move(Store &store, const SettingsView &settings, Committer committer)
{
    const NameNumber aisle = store.add_name("refs/heads/aisle-7").value();
    store.load_loose(aisle, Target::object(Layout{4102})).value();
    const EditList list = EditList::of({Update(aisle, Target::object(Layout{4103}))}).value();
    const Outcome outcome = store.prepare(list, settings.mode()).value().commit(committer).value();
    std::printf("committed: %s\n", to_string(outcome).c_str());
    for (const Line &line : store.lines(aisle))
        std::printf("aisle-7 to %u, by %s\n", unsigned(line.next.number()), text(name_of(settings, line.committer)).c_str());
}

static void run()
{
    const size_t size = write_settings();

    const auto older = SettingsView::open(file.data(), size, SettingsVersion::first);
    if (const Refusal *refusal = older.refusal())
        std::printf("older reader: refused with number %u, %s\n", unsigned(refusal->number()), refusal->reason_name());

    const SettingsView settings = SettingsView::open(file.data(), size, SettingsVersion::second).value();
    std::printf("newer reader: site %u, %u committers\n", unsigned(settings.site().number()), unsigned(settings.committer_count()));

    Store store = Store::start_with_settings(region, file.data(), size).value();
    if (const auto committer = find(settings, "night shift"))
        move(store, settings, *committer);
    if (!find(settings, "day shift"))
        std::printf("day shift: no committer of this site\n");
}

int main()
{
    try {
        run();
    } catch (const Refused &refused) {
        std::fprintf(stderr, "%s\n", refused.what());
        return 1;
    }
}
