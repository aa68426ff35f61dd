// A place is no number.
#include "dehlbazin.hpp"

using namespace dehlbazin;

bool planner(const Row &row)
{
#ifdef REFUSED
    return row.found == 1; // refused
#else
    return row.found == Place::loose;
#endif
}
