// A receiver is not copied: its bytes have one.
#include "dehlbazin.hpp"

using namespace dehlbazin;

Receiver planner(Receiver &receiver)
{
#ifdef REFUSED
    return receiver; // refused
#else
    return std::move(receiver);
#endif
}
