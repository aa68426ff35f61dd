// The number of a name is no object's.
#include "dehlbazin.hpp"

using namespace dehlbazin;

Target planner(NameNumber name, ObjectNumber object)
{
#ifdef REFUSED
    return Target::object(name); // refused
#else
    return Target::object(object);
#endif
}
