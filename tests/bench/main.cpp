// Measures the calls of the archive, and prints tables. It is no test: nothing that it finds is good or bad. tools/bench builds it.
#include "report.h"

#include <cstring>

// With no word all parts, else those that are named.
static bool is_asked(int count, char **words, const char *part)
{
    for (int i = 1; i < count; i++)
        if (std::strcmp(words[i], part) == 0)
            return true;
    return count == 1;
}

int main(int count, char **words)
{
    if (is_asked(count, words, "calls"))
        print_calls();
    if (is_asked(count, words, "transactions"))
        print_transactions();
    if (is_asked(count, words, "git"))
        print_git();
    if (is_asked(count, words, "growth"))
        print_growth();
    if (is_asked(count, words, "lookups"))
        print_lookups();
    if (is_asked(count, words, "fragments"))
        print_fragments();
    if (is_asked(count, words, "texts"))
        print_texts();
    return 0;
}
