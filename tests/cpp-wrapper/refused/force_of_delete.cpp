// A delete forces no log line.
#include "dehlbazin.hpp"

using namespace dehlbazin;

Result<Done> planner(EditList &list, NameNumber name)
{
#ifdef REFUSED
    return list.add(Delete(name).force()); // refused
#else
    return list.add(Delete(name).deref());
#endif
}
