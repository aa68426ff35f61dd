// No number is negative.
#include "dehlbazin.hpp"

using namespace dehlbazin;

ObjectNumber planner()
{
#ifdef REFUSED
    return ObjectNumber{-1}; // refused
#else
    return ObjectNumber{1};
#endif
}
