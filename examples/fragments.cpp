// A list that arrives in pieces. The planner moves 32 aisles at once, with a list of 868 bytes. Its message bus delivers up to 512
// bytes at a time, cut where it likes. The site collects them in a receiver, and closes it when all are there: then the list is
// prepared as if it had come whole. Once a piece is lost on the way, and once a piece comes twice.
// Run it with: bash tools/example fragments
#include "dehlbazin.hpp"

#include <cstdio>
#include <vector>

using namespace dehlbazin;
using Layout = ObjectNumber;
using Packet = std::vector<uint8_t>; // of the bus, 512 bytes at most

static Region region;       // the store
static ReceiverBytes inbox; // what has come of a list: ours to lend too

static const uint64_t AISLES = 32;

static std::string aisle_name(uint64_t n) { return "refs/heads/aisle-" + std::to_string(n); }

static void print_aisle(const Store &store, uint64_t n)
{
    const Found found = store.read_name(NameNumber{n}).value();
    std::printf("aisle-%u: %s\n", unsigned(n), to_string(found).c_str());
}

// ---- the planner, far away

// Every aisle to the layout of the night shift, and not one of them if another layout than the day's is in one.
static EditList night_layout()
{
    EditList list;
    for (uint64_t n = 0; n < AISLES; n++)
        list.add(Update(NameNumber{n}, Target::object(Layout{5000 + n}))
                     .expecting(Expected::must_exist_and_match(Target::object(Layout{4000 + n}))))
            .value();
    return list;
}

// The list as the bus delivers it.
static std::vector<Packet> sent(const EditList &list)
{
    std::vector<Packet> packets;
    size_t at = 0;
    for (size_t size : {512, 300, 56}) {
        packets.emplace_back(list.data() + at, list.data() + at + size);
        at += size;
    }
    return packets;
}

// ---- the site

static void take(Receiver &receiver, const Packet &packet)
{
    const auto held = receiver.take(packet);
    if (const Refusal *refusal = held.refusal())
        std::printf("%u bytes: refused with number %u, %s\n", unsigned(packet.size()), unsigned(refusal->number()),
                    refusal->reason_name());
    else
        std::printf("%u bytes: %u are held\n", unsigned(packet.size()), unsigned(*held.get()));
}

// Prepares what has come. Refused or not, the receiver holds nothing then, so that it takes the next list.
static void close_and_commit(Receiver &receiver, Store &store)
{
    auto closed = receiver.close(store);
    if (Transaction *transaction = closed.get()) {
        std::printf("closed: %u rows\n", unsigned(transaction->row_count()));
        std::printf("committed: %s\n", to_string(transaction->commit(Committer{12}).value()).c_str());
    } else {
        std::printf("closed: refused with number %u, %s\n", unsigned(closed.number()), closed.refusal()->reason_name());
    }
    std::printf("%u are held\n", unsigned(receiver.held().value()));
}

static void run()
{
    Store store = Store::start(region, Setting::normal).value();
    for (uint64_t n = 0; n < AISLES; n++)
        store.load_loose(store.add_name(aisle_name(n)).value(), Target::object(Layout{4000 + n})).value();
    const std::vector<Packet> packets = sent(night_layout());
    Receiver receiver = Receiver::fresh(inbox).value();

    // The second piece is lost. What has come is no list, and no aisle is moved.
    take(receiver, packets[0]);
    take(receiver, packets[2]);
    close_and_commit(receiver, store);
    print_aisle(store, 31);

    // All of it is sent again. The last piece comes twice: there is no room for it, and what is held stays as it is.
    for (const Packet &packet : packets)
        take(receiver, packet);
    take(receiver, packets[2]);
    close_and_commit(receiver, store);
    print_aisle(store, 0);
    print_aisle(store, 31);
}

int main()
{
    try {
        run();
    } catch (const Refused &refused) {
        std::fprintf(stderr, "%s\n", refused.what());
        return 1;
    }
}
