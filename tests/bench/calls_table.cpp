// Each of thirteen calls, the lock calls on both kinds, on an empty, a usual and a full region.
#include "paper.h"
#include "report.h"
#include "sites.h"
#include "trial.h"

// A region before and after its edits are prepared, and what each call asks of it. A call is made on the prepared region, except
// those that are done only where nothing is prepared, or where the packed table's lock is free.
struct Sample {
    const char *title;
    Bytes open, prepared;
    Call prepare;
    std::string add;        // the name that add_name is given
    uint64_t held, foreign; // a name with lines whose lock is free, and one whose lock is foreign
    uint64_t line, row;     // the last places
};

static Sample sample(const char *title, Bytes open, const Call &prepare, const std::string &add, uint64_t held, uint64_t line,
                     uint64_t row)
{
    const uint64_t foreign = held > 0 ? held - 1 : 0;
    if (held > 0)
        open = after(open, call::place_lock_on_name(foreign));
    return {title, open, after(open, prepare), prepare, add, held, foreign, line, row};
}

static Sample empty_sample()
{
    return sample("An empty region", empty_site(), call::prepare(write_list({}), 1), "HEAD", 0, 0, 0);
}

// Five edits: one through HEAD, which is two rows.
static Sample usual_sample()
{
    std::vector<Edit> edits = {through(updating(0, object(9001)))};
    for (uint16_t n = 2; n <= 5; n++)
        edits.push_back(updating(n, object(9000 + n)));
    return sample("A usual region: 40 names, 300 lines, 6 rows", usual_site(), call::prepare(write_list(edits), 1),
                  usual_name(USUAL_NAMES), 30, 9, 5);
}

static Sample full_sample()
{
    return sample("A full region: 256 names that share 61 bytes, 1,024 lines, 160 rows", full_site(MOST_LINES),
                  call::prepare(write_list(chain_moves(MOST_EDITS)), DEHLBAZIN_MODE_UPDATES), apart_name(MOST_NAMES - 1),
                  MOST_NAMES - 1, 9, MOST_ROWS - 1);
}

static std::vector<Trial> trials_of(const Sample &s)
{
    const Bytes &open = s.open, &prepared = s.prepared;
    return {
        {"start", prepared, {call::start(1)}},
        {"add_name", prepared, {call::add_name(s.add)}},
        {"name_bytes", prepared, {call::name_bytes(s.held)}},
        {"load_loose", open, {call::load_loose(s.held, OBJECT, 5)}},
        {"load_packed", open, {call::load_packed(s.held, OBJECT, 5)}},
        {"place_lock, a name", prepared, {call::place_lock_on_name(s.held)}},
        {"lift_lock, a name", prepared, {call::lift_lock_of_name(s.foreign)}},
        {"place_lock, the table", open, {call::place_lock_on_packed()}},
        {"lift_lock, the table", after(open, call::place_lock_on_packed()), {call::lift_lock_of_packed()}},
        {"prepare", open, {s.prepare}},
        {"commit", prepared, {call::commit(7, ~uint64_t(0))}},
        {"rollback", prepared, {call::rollback()}},
        {"read_name", prepared, {call::read_name(s.held)}},
        {"read_line", prepared, {call::read_line(s.held, s.line)}},
        {"read_row", prepared, {call::read_row(s.row)}},
    };
}

static void print_sample(const Sample &sample)
{
    print_title(sample.title);
    std::vector<std::string> head = {"call", "gives", "one pass", "checks by hand", "call by hand"};
    add_own_columns(head);
    for (const char *column : {"now / pass", "now / checks", "now / by hand", "spread"})
        head.push_back(column);
    print_head(head);
    for (const Trial &trial : trials_of(sample)) {
        const Result r = run(trial);
        std::vector<std::string> row = {trial.what, std::to_string(r.number), time_text(r.sum.least), time_text(r.checks.least),
                                        time_text(r.by_hand.least)};
        add_own(row, r.before, r.now);
        for (const Timed &peer : {r.sum, r.checks, r.by_hand})
            row.push_back(ratio_text(r.now.least / peer.least));
        row.push_back(percent_text(r.now.spread()));
        print_row(row);
    }
}

void print_calls()
{
    print_sample(empty_sample());
    print_sample(usual_sample());
    print_sample(full_sample());
}
