// A number that says nothing of its kind is no name's.
#include "dehlbazin.hpp"

using namespace dehlbazin;

Result<Found> planner(const Store &store)
{
#ifdef REFUSED
    return store.read_name(7); // refused
#else
    return store.read_name(NameNumber(7));
#endif
}
