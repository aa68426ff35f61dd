// A number that says nothing of its kind is no mode.
#include "dehlbazin.hpp"

using namespace dehlbazin;

Result<Transaction> planner(Receiver &receiver, Store &store)
{
#ifdef REFUSED
    return receiver.close(store, 1); // refused
#else
    return receiver.close(store, Mode::deletions);
#endif
}
