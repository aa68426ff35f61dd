// The kind of what is locked is no argument: the type says it.
#include "dehlbazin.hpp"

using namespace dehlbazin;

Result<Done> planner(Store &store, NameNumber name)
{
#ifdef REFUSED
    return store.place_lock(DEHLBAZIN_LOCKABLE_NAME, name); // refused
#else
    return store.place_lock(name);
#endif
}
