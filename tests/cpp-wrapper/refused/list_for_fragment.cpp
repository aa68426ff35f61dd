// A list is no fragment: its bytes are, or some of them.
#include "dehlbazin.hpp"

using namespace dehlbazin;

Result<size_t> planner(Receiver &receiver, const EditList &list)
{
#ifdef REFUSED
    return receiver.take(list); // refused
#else
    return receiver.take(list.data(), list.size());
#endif
}
