// A receiver collects in bytes that can be written.
#include "dehlbazin.hpp"

using namespace dehlbazin;

Result<Receiver> planner(const ReceiverBytes &constant, ReceiverBytes &bytes)
{
#ifdef REFUSED
    return Receiver::open(constant); // refused
#else
    return Receiver::open(bytes);
#endif
}
