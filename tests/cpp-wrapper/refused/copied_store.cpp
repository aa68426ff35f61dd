// A store is not copied: a region has one.
#include "dehlbazin.hpp"

using namespace dehlbazin;

Store planner(Store &store)
{
#ifdef REFUSED
    return store; // refused
#else
    return std::move(store);
#endif
}
