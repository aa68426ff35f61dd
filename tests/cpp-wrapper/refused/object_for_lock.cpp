// An object has no lock.
#include "dehlbazin.hpp"

using namespace dehlbazin;

Result<Done> planner(Store &store, NameNumber name, ObjectNumber object)
{
#ifdef REFUSED
    return store.place_lock(object); // refused
#else
    return store.place_lock(name);
#endif
}
