// A link leads to a name, and to no object.
#include "dehlbazin.hpp"

using namespace dehlbazin;

Target planner(NameNumber name, ObjectNumber object)
{
#ifdef REFUSED
    return Target::link(object); // refused
#else
    return Target::link(name);
#endif
}
