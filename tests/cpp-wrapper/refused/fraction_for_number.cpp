// No number is made of a fraction.
#include "dehlbazin.hpp"

using namespace dehlbazin;

ObjectNumber planner(double layout)
{
#ifdef REFUSED
    return ObjectNumber(layout); // refused
#else
    return ObjectNumber(uint64_t(layout));
#endif
}
