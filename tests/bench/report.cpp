#include "report.h"

#include "archive.h"
#include "paper.h"

void add_own_columns(std::vector<std::string> &head, const std::string &what)
{
    const std::string of = what.empty() ? "" : what + " ";
    if (BEFORE)
        head.push_back(of + "before");
    head.push_back(of + "now");
    if (BEFORE)
        head.push_back("now / before");
}

void add_own(std::vector<std::string> &row, const std::optional<Timed> &before, const Timed &now)
{
    if (BEFORE)
        row.push_back(time_text(before->least));
    row.push_back(time_text(now.least));
    if (BEFORE)
        row.push_back(ratio_text(now.least / before->least));
}
