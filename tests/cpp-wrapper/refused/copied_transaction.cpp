// A transaction is not copied: it ends once.
#include "dehlbazin.hpp"

using namespace dehlbazin;

Transaction planner(Transaction &transaction)
{
#ifdef REFUSED
    return transaction; // refused
#else
    return std::move(transaction);
#endif
}
