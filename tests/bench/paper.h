// A table in Markdown. It is printed row by row, as the rows come.
#pragma once

#include <string>
#include <vector>

void print_title(const std::string &title);
void print_head(const std::vector<std::string> &columns);
void print_row(const std::vector<std::string> &fields);

// Numbers as a reader wants them: three digits of a time in microseconds, of a ratio, and a share in percent.
std::string time_text(double microseconds);
std::string ratio_text(double ratio);
std::string percent_text(double share);
