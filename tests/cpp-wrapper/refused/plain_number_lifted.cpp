// A number that says nothing of its kind is neither a name nor the packed table: not even 0, which could be a pointer too.
#include "dehlbazin.hpp"

using namespace dehlbazin;

Result<Done> planner(Store &store)
{
#ifdef REFUSED
    return store.lift_lock(0); // refused
#else
    return store.lift_lock(NameNumber(0));
#endif
}
