// A number that says nothing of its kind is neither a name nor the packed table.
#include "dehlbazin.hpp"

using namespace dehlbazin;

Result<Done> planner(Store &store)
{
#ifdef REFUSED
    return store.place_lock(3); // refused
#else
    return store.place_lock(NameNumber(3));
#endif
}
