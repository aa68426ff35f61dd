// Empty braces are not the packed table, whose lock is lifted by its name.
#include "dehlbazin.hpp"

using namespace dehlbazin;

Result<Done> planner(Store &store)
{
#ifdef REFUSED
    return store.lift_lock({}); // refused
#else
    return store.lift_lock(packed_table);
#endif
}
