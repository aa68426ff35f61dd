// What a list in fragments costs: taking one, by its length and by how much is held already; and closing, beside prepare on the
// whole list. An older archive has no receiver, so only the present one is measured.
#include "paper.h"
#include "report.h"
#include "sites.h"

#include <array>
#include <cstdlib>

using ReceiverBytes = std::array<uint8_t, DEHLBAZIN_RECEIVER_SIZE>;

static uint8_t record[DEHLBAZIN_ANSWER_SIZE];
static volatile uint8_t sink; // so that no compiler leaves the putting back out

static uint32_t take(ReceiverBytes &receiver, const Bytes &fragment)
{
    return dehlbazin_take_fragment(receiver.data(), receiver.size(), fragment.data(), fragment.size(), record, sizeof record);
}

// Nothing is measured that is not done.
static void must(bool done)
{
    if (!done)
        std::abort();
}

// A receiver that holds the bytes, from its own call.
static ReceiverBytes holding(const Bytes &bytes)
{
    ReceiverBytes receiver;
    must(dehlbazin_fresh_receiver(receiver.data(), receiver.size(), record, sizeof record) == DEHLBAZIN_DONE);
    must(take(receiver, bytes) == DEHLBAZIN_DONE);
    return receiver;
}

static Timed without(const Timed &all, const Timed &part) { return {all.least - part.least, all.middle - part.least}; }

static void print_take(size_t held, size_t length)
{
    const ReceiverBytes before = holding(Bytes(held, 7));
    const Bytes fragment(length, 7);
    ReceiverBytes receiver = before;
    must(take(receiver, fragment) == DEHLBAZIN_DONE);
    auto put_back = [&] {
        receiver = before;
        sink = receiver[2];
    };
    const std::vector<Timed> timed = measure({[&] { put_back(), take(receiver, fragment); }, put_back});
    const Timed took = without(timed[0], timed[1]);
    print_row({std::to_string(held), std::to_string(length), time_text(took.least), percent_text(took.spread())});
}

// Both on the same region, and both leave the same bytes and the same answer.
static void print_close(const char *what, const Bytes &region, const std::vector<Edit> &edits, uint64_t mode)
{
    const std::string text = write_list(edits);
    const Bytes list(text.begin(), text.end());
    const ReceiverBytes full = holding(list);
    ReceiverBytes receiver = full;
    Bytes now = region;
    auto prepare = [&] { return dehlbazin_prepare(now.data(), now.size(), list.data(), list.size(), mode, record, sizeof record); };
    auto close = [&] {
        return dehlbazin_close_receiver(now.data(), now.size(), receiver.data(), receiver.size(), mode, record, sizeof record);
    };
    must(prepare() == DEHLBAZIN_DONE);
    const Bytes prepared = now, answer(record, record + sizeof record);
    now = region;
    must(close() == DEHLBAZIN_DONE && now == prepared && Bytes(record, record + sizeof record) == answer);
    must(receiver == holding({}));
    auto put_back = [&] {
        now = region;
        receiver = full;
        sink = receiver[2];
    };
    const std::vector<Timed> timed = measure({[&] { put_back(), prepare(); }, [&] { put_back(), close(); }, put_back});
    const Timed whole = without(timed[0], timed[2]), closed = without(timed[1], timed[2]);
    print_row({what, std::to_string(list.size()), time_text(whole.least), time_text(closed.least),
               ratio_text(closed.least / whole.least), percent_text(closed.spread())});
}

void print_fragments()
{
    print_title("Taking a fragment");
    print_head({"bytes held before", "bytes of the fragment", "take_fragment", "spread"});
    const std::vector<std::pair<size_t, size_t>> fragments = {{0, 0}, {0, 1}, {0, 512}, {0, 868}, {512, 356}, {867, 1}, {868, 0}};
    for (const auto &[held, length] : fragments)
        print_take(held, length);
    print_title("Closing a receiver, beside prepare on the whole list");
    print_head({"region", "bytes of the list", "prepare", "close_receiver", "close / prepare", "spread"});
    print_close("empty", empty_site(), {}, DEHLBAZIN_MODE_DELETIONS);
    print_close("usual", usual_site(), {updating(2, object(9002)), updating(3, object(9003))}, DEHLBAZIN_MODE_DELETIONS);
    print_close("full", full_site(MOST_LINES), chain_moves(MOST_EDITS), DEHLBAZIN_MODE_UPDATES);
}
