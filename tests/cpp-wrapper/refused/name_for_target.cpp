// A name's number is no target: that a link is meant is said.
#include "dehlbazin.hpp"

using namespace dehlbazin;

Update planner(NameNumber name, NameNumber other)
{
#ifdef REFUSED
    return Update(name, other); // refused
#else
    return Update(name, Target::link(other));
#endif
}
