// A result is looked at.
#include "dehlbazin.hpp"

using namespace dehlbazin;

void planner(Store &store)
{
#ifdef REFUSED
    store.place_lock(packed_table); // refused
#else
    (void)store.place_lock(packed_table);
#endif
}
