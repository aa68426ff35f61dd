// Empty braces are not the packed table.
#include "dehlbazin.hpp"

using namespace dehlbazin;

Result<Done> planner(Store &store)
{
#ifdef REFUSED
    return store.place_lock({}); // refused
#else
    return store.place_lock(packed_table);
#endif
}
