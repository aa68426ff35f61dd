// What a lock is placed on is said: nothing stands for the packed table but its name.
#include "dehlbazin.hpp"

using namespace dehlbazin;

Result<Done> planner(Store &store)
{
#ifdef REFUSED
    return store.place_lock(); // refused
#else
    return store.place_lock(packed_table);
#endif
}
