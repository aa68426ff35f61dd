// A packed value is an object or none, and no link.
#include "dehlbazin.hpp"

using namespace dehlbazin;

Result<Done> planner(Store &store, NameNumber name)
{
#ifdef REFUSED
    return store.load_packed(name, Target::link(name)); // refused
#else
    return store.load_packed(name, ObjectNumber(7));
#endif
}
