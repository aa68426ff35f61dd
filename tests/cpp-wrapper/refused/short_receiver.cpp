// A receiver of another size is none.
#include "dehlbazin.hpp"

using namespace dehlbazin;

Result<Receiver> planner(ReceiverBytes &bytes, std::array<uint8_t, DEHLBAZIN_RECEIVER_SIZE - 1> &other)
{
#ifdef REFUSED
    return Receiver::fresh(other); // refused
#else
    return Receiver::fresh(bytes);
#endif
}
