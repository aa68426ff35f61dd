// Prepare and commit of short and of long lists, and both together beside libgit2.
#include "git.h"
#include "paper.h"
#include "report.h"
#include "sites.h"
#include "trial.h"

#include <cstdio>

static const Call COMMIT = call::commit(7, ~uint64_t(0));

static std::vector<Edit> moves(uint16_t first, size_t edits)
{
    std::vector<Edit> list;
    for (size_t i = 0; i < edits; i++)
        list.push_back(updating(uint16_t(first + i), object(2000000 + i)));
    return list;
}

static std::vector<Edit> deletes(uint16_t first, size_t edits)
{
    std::vector<Edit> list;
    for (size_t i = 0; i < edits; i++)
        list.push_back(deleting(uint16_t(first + i)));
    return list;
}

static std::vector<Edit> forced(std::vector<Edit> edits)
{
    for (Edit &edit : edits)
        edit.force = 1;
    return edits;
}

// One list on one region: prepare, then commit on what it leaves.
static void print_list(const std::string &what, const Bytes &open, const std::vector<Edit> &edits, uint64_t mode)
{
    const Call prepare = call::prepare(write_list(edits), mode);
    const Result p = run({what + ", prepare", open, {prepare}});
    const Result c = run({what + ", commit", after(open, prepare), {COMMIT}});
    std::vector<std::string> row = {what, std::to_string(p.place), std::to_string(c.place)};
    for (const Result &r : {p, c}) {
        add_own(row, r.before, r.now);
        row.push_back(time_text(r.checks.least));
        row.push_back(time_text(r.by_hand.least));
        row.push_back(ratio_text(r.now.least / r.by_hand.least));
    }
    print_row(row);
}

void print_transactions()
{
    print_title("Prepare and commit of short and long lists");
    std::vector<std::string> head = {"list", "rows", "writes"};
    for (const char *what : {"prepare", "commit"}) {
        add_own_columns(head, what);
        for (const char *column : {"checks by hand", "by hand", "now / by hand"})
            head.push_back(column);
    }
    print_head(head);

    const Bytes usual = usual_site(), full = full_site(MOST_LINES - MOST_ROWS);
    print_list("usual region, 1 move", usual, moves(1, 1), 1);
    print_list("usual region, 32 moves", usual, moves(1, 32), 1);
    print_list("864 lines, 1 move", full, moves(MOST_ROWS, 1), 2);
    print_list("864 lines, 32 moves", full, moves(MOST_ROWS, 32), 2);
    print_list("864 lines, 32 moves through 4 links each, all with lines", full, forced(chain_moves(32)), 2);
    print_list("864 lines, the same, packed and not loose", full, forced(chain_moves(32)), 3);
    print_list("1,024 lines, 32 deletes of names with 32 lines each", logged_site(), deletes(MOST_NAMES - 32, 32), 1);
    print_list("960 lines, 32 deletes through 4 links each, 6 lines a name", logged_chains_site(), chain_deletes(32), 1);
}

void print_git()
{
    const std::string missing = git_missing();
    if (!missing.empty()) {
        std::printf("\n%s.\n", missing.c_str());
        return;
    }
    GitSite site(USUAL_NAMES);
    print_title("Prepare and commit together, beside a transaction of " + git_title());
    std::vector<std::string> head = {"40 names"};
    add_own_columns(head);
    for (const char *column : {"by hand", "libgit2", "now / libgit2"})
        head.push_back(column);
    print_head(head);
    const Bytes usual = usual_site();
    for (size_t edits : {1, 32}) {
        const Call prepare = call::prepare(write_list(moves(1, edits)), 1);
        const std::string what = std::to_string(edits) + (edits == 1 ? " move" : " moves");
        const Result r = run({what, usual, {prepare, COMMIT}}, [&] { site.move(edits); });
        std::vector<std::string> row = {what};
        add_own(row, r.before, r.now);
        row.push_back(time_text(r.by_hand.least));
        row.push_back(time_text(r.other->least));
        row.push_back(ratio_text(r.now.least / r.other->least));
        print_row(row);
    }
}
