// A closing changes a region, so it is on a store.
#include "dehlbazin.hpp"

using namespace dehlbazin;

Result<Transaction> planner(Receiver &receiver, Store &store, const View &view)
{
#ifdef REFUSED
    return receiver.close(view); // refused
#else
    return receiver.close(store);
#endif
}
