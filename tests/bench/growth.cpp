// How the region's test grows: the same reading call on regions that have more and more names, rows or lines, all else the same.
#include "paper.h"
#include "report.h"
#include "sites.h"
#include "trial.h"

// A region, and how much it has of what grows.
struct Step {
    size_t size;
    Bytes region;
};

static Bytes with_rows(const Bytes &open, size_t rows)
{
    return after(open, call::prepare(write_list(chain_moves(rows / CHAIN)), DEHLBAZIN_MODE_UPDATES));
}

// Names from 32 on; 10 rows, and 512 lines of the other 22 names that the smallest has.
static std::vector<Step> more_names(Namer namer)
{
    const size_t chains = 2;
    Racks racks(namer);
    racks.grow(32);
    racks.link_chains(chains);
    racks.log(chains * CHAIN, 32, 512);
    std::vector<Step> steps;
    for (size_t names : {32, 64, 128, 256}) {
        racks.grow(names);
        steps.push_back({names, with_rows(racks.region(), chains * CHAIN)});
    }
    return steps;
}

// Rows and lines of a region with 256 names: the rows have other names than the lines, so that none is due one.
static std::vector<Step> more_rows(const Bytes &open)
{
    std::vector<Step> steps;
    for (size_t rows : {10, 20, 40, 80, 160})
        steps.push_back({rows, with_rows(open, rows)});
    return steps;
}

static std::vector<Step> more_lines(Namer namer, Bytes &middle)
{
    Racks racks(namer);
    racks.grow(MOST_NAMES);
    racks.link_chains(MOST_EDITS);
    std::vector<Step> steps;
    size_t made = 0;
    for (size_t lines : {128, 256, 512, 1024}) {
        racks.log(MOST_ROWS, MOST_NAMES, lines - made);
        made = lines;
        if (lines == 512)
            middle = racks.region();
        steps.push_back({lines, with_rows(racks.region(), MOST_ROWS)});
    }
    return steps;
}

static std::string step_text(const Timed *was, const Timed &is) { return was ? ratio_text(is.least / was->least) : ""; }

static void print_steps(const std::string &what, const std::vector<Step> &steps)
{
    std::optional<Result> last;
    for (const Step &step : steps) {
        const Result r = run({what, step.region, {LOOK}});
        std::vector<std::string> row = {what, std::to_string(step.size), time_text(r.checks.least),
                                        step_text(last ? &last->checks : nullptr, r.checks)};
        if (BEFORE) {
            row.push_back(time_text(r.before->least));
            row.push_back(step_text(last ? &*last->before : nullptr, *r.before));
        }
        row.push_back(time_text(r.now.least));
        row.push_back(step_text(last ? &last->now : nullptr, r.now));
        print_row(row);
        last = r;
    }
}

static void print_kind(const std::string &title, Namer namer)
{
    print_title(title);
    std::vector<std::string> head = {"what grows", "size", "checks by hand", "step"};
    if (BEFORE)
        for (const char *column : {"before", "step"})
            head.push_back(column);
    for (const char *column : {"now", "step"})
        head.push_back(column);
    print_head(head);
    print_steps("names (10 rows, 512 lines)", more_names(namer));
    Bytes middle;
    const std::vector<Step> lines = more_lines(namer, middle);
    print_steps("rows (256 names, 512 lines)", more_rows(middle));
    print_steps("lines (256 names, 160 rows)", lines);
}

void print_growth()
{
    print_kind("How the test grows: names that end apart", apart_name);
    print_kind("How the test grows: names that are hard to tell apart", hard_name);
}
