// The number of a name is not made from an object's.
#include "dehlbazin.hpp"

using namespace dehlbazin;

NameNumber planner(ObjectNumber object)
{
#ifdef REFUSED
    return NameNumber(object); // refused
#else
    return NameNumber(object.number());
#endif
}
