// What a closing gives is looked at: a transaction that nobody holds is rolled back.
#include "dehlbazin.hpp"

using namespace dehlbazin;

void planner(Receiver &receiver, Store &store)
{
#ifdef REFUSED
    receiver.close(store); // refused
#else
    (void)receiver.close(store);
#endif
}
