// A delete has no message.
#include "dehlbazin.hpp"

using namespace dehlbazin;

Result<Done> planner(EditList &list, NameNumber name)
{
#ifdef REFUSED
    return list.add(Delete(name).message(Message(1))); // refused
#else
    return list.add(Delete(name).log_only());
#endif
}
