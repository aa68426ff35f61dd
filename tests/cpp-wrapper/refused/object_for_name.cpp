// The number of an object is no name's.
#include "dehlbazin.hpp"

using namespace dehlbazin;

Result<Found> planner(const Store &store, NameNumber name, ObjectNumber object)
{
#ifdef REFUSED
    return store.read_name(object); // refused
#else
    return store.read_name(name);
#endif
}
