// A region is no receiver.
#include "dehlbazin.hpp"

using namespace dehlbazin;

Result<Receiver> planner(ReceiverBytes &bytes, Region &region)
{
#ifdef REFUSED
    return Receiver::open(region); // refused
#else
    return Receiver::open(bytes);
#endif
}
