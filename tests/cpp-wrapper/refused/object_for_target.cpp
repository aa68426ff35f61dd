// An object's number is no target: that an object is meant is said.
#include "dehlbazin.hpp"

using namespace dehlbazin;

Update planner(NameNumber name, ObjectNumber object)
{
#ifdef REFUSED
    return Update(name, object); // refused
#else
    return Update(name, Target::object(object));
#endif
}
