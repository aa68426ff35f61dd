#include "paper.h"

#include <cstdio>

void print_title(const std::string &title) { std::printf("\n### %s\n\n", title.c_str()); }

void print_row(const std::vector<std::string> &fields)
{
    for (const std::string &field : fields)
        std::printf("| %s ", field.c_str());
    std::printf("|\n");
    std::fflush(stdout);
}

// The first column is text, the others are numbers.
void print_head(const std::vector<std::string> &columns)
{
    print_row(columns);
    for (size_t i = 0; i < columns.size(); i++)
        std::printf(i == 0 ? "|---" : "|---:");
    std::printf("|\n");
}

static std::string text(const char *format, double number)
{
    char digits[40];
    std::snprintf(digits, sizeof digits, format, number);
    return digits;
}

static std::string three_digits(double number)
{
    return text(number < 10 ? "%.2f" : number < 100 ? "%.1f" : "%.0f", number);
}

std::string time_text(double microseconds) { return three_digits(microseconds); }
std::string ratio_text(double ratio) { return three_digits(ratio); }
std::string percent_text(double share) { return text("%.0f %%", 100 * share); }
