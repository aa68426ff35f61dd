// A route planner's use of Dehlbazin: it names a few aisles, loads their layouts, and reads them back by name. It moves the layout
// that HEAD leads to. Then it moves two at once, is stopped half way, reads what stands there, and prints the log.
// Run it with: bash tools/example
#include "dehlbazin.hpp"

#include <cstdio>

using namespace dehlbazin;
using Layout = ObjectNumber;

static Region region; // the store: ours to lend, to copy, to keep in a file

static std::string in_words(const Store &store, const std::optional<Target> &value)
{
    if (!value)
        return "none";
    if (value->is_link())
        return "as " + std::string(store.name_bytes(*value->link()).value());
    return "layout " + std::to_string(value->number());
}

static void print(std::string_view name, const std::string &text)
{
    std::printf("%-20.*s %s\n", int(name.size()), name.data(), text.c_str());
}

// The value and its place, which shows where a layout is old since a newer one is broken. Of no value the place says all.
static void print_value(Store &store, std::string_view name)
{
    const Found found = store.read_name(store.add_name(name).value()).value();
    print(name, (found.target ? in_words(store, found.target) + ", " : "") + to_string(found.place));
}

// A move: through the links of a name, from one layout to another, and not if something else than the first is there.
static Update move(NameNumber name, Layout from, Layout to)
{
    return Update(name, Target::object(to)).deref().expecting(Expected::must_exist_and_match(Target::object(from)));
}

// All moves are prepared or none. Shows the rows that they became, then makes the writes, or as many of them as are allowed. If
// something were thrown on the way, the transaction would be rolled back, and its locks would be free.
static void make(Store &store, std::initializer_list<Edit> moves, Allowance allowance)
{
    Transaction transaction = store.prepare(EditList::of(moves).value()).value();
    std::printf("prepared %u rows\n", unsigned(transaction.row_count()));
    for (const Row &row : store.rows())
        print(store.name_bytes(row.name).value(),
              in_words(store, row.expected.target()) + (row.log_only ? ", logs " : ", becomes ") + in_words(store, row.next));
    const Committer planner{12};
    const Outcome outcome = transaction.commit(planner, allowance).value();
    std::printf("%s %u writes\n", outcome.all_written() ? "committed with" : "stopped after", unsigned(outcome.writes));
}

// The lines of a name's log, the oldest first.
static void print_log(Store &store, std::string_view name)
{
    for (const Line &line : store.lines(store.add_name(name).value()))
        print(name, std::to_string(line.previous ? line.previous->number() : 0) + " to " + std::to_string(line.next.number()) +
                        ", by " + std::to_string(line.committer.number()));
}

// A refusal that was not foreseen is thrown by value(), and ends the program: a route over a guessed layout helps nobody.
static void plan()
{
    Store store = Store::start(region, Setting::normal).value();
    const NameNumber aisle7 = store.add_name("refs/heads/aisle-7").value();
    const NameNumber aisle8 = store.add_name("refs/heads/aisle-8").value();
    const NameNumber aisle9 = store.add_name("refs/heads/aisle-9").value();
    const NameNumber head = store.add_name("HEAD").value();
    const Layout largest{UINT64_MAX}; // every 64-bit number but 0 is a layout
    store.load_loose(aisle7, Target::object(Layout{4102})).value();
    store.load_loose(aisle8, Target::object(largest)).value();
    store.load_packed(aisle9, Layout{4090}).value();
    store.load_loose(aisle9, Loose::broken()).value(); // a newer layout was there, and cannot be read any more
    store.load_loose(head, Target::link(aisle7)).value();

    print("aisle", "value");
    for (const char *name : {"HEAD", "refs/heads/aisle-7", "refs/heads/aisle-8", "refs/heads/aisle-9", "refs/heads/aisle-10"})
        print_value(store, name);

    make(store, {move(head, Layout{4102}, Layout{4103})}, every_write);
    print_value(store, "refs/heads/aisle-7");

    // Three writes are too few for this. Each aisle reads its old layout or its new one then, never a third.
    make(store, {move(head, Layout{4103}, Layout{4104}), move(aisle8, largest, Layout{4104})}, Allowance{3});
    print_value(store, "refs/heads/aisle-7");
    print_value(store, "refs/heads/aisle-8");

    // A line is written before its value, so where a commit was stopped the log can be ahead of the aisles.
    print("log of", "move");
    for (const char *name : {"HEAD", "refs/heads/aisle-7", "refs/heads/aisle-8"})
        print_log(store, name);

    // A number that was mixed up on the way is refused whole. It is not taken for name 0.
    const auto mixed_up = store.read_name(NameNumber{65536});
    if (const Refusal *refusal = mixed_up.refusal())
        std::printf("name %u is refused with number %u\n", unsigned(refusal->name()->number()), unsigned(refusal->number()));
}

int main()
{
    try {
        plan();
    } catch (const Refused &refused) {
        std::fprintf(stderr, "%s\n", refused.what());
        return 1;
    }
}
