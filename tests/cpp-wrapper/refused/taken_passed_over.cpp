// Whether a fragment was taken is looked at.
#include "dehlbazin.hpp"

using namespace dehlbazin;

void planner(Receiver &receiver, std::string_view fragment)
{
#ifdef REFUSED
    receiver.take(fragment); // refused
#else
    (void)receiver.take(fragment);
#endif
}
