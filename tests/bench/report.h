// The parts of the report, each of which prints its tables.
#pragma once

#include "timing.h"

#include <optional>
#include <string>
#include <vector>

// The columns that every table has of the archive itself: before, now, and how the two compare. Without an older archive: now.
void add_own_columns(std::vector<std::string> &head, const std::string &what = "");
void add_own(std::vector<std::string> &row, const std::optional<Timed> &before, const Timed &now);

// Each call on three regions.
void print_calls();

// Prepare and commit of long lists, and beside libgit2.
void print_transactions();
void print_git();

// How the region's test grows with names, rows and lines.
void print_growth();

// Adding names that begin alike, and names that end alike.
void print_lookups();

// Taking fragments, and closing beside prepare.
void print_fragments();

// Writing the packed table as text, and reading it.
void print_texts();
