// Committer and allowance do not change places.
#include "dehlbazin.hpp"

using namespace dehlbazin;

Result<Outcome> planner(Transaction &transaction)
{
#ifdef REFUSED
    return transaction.commit(Allowance(2), Committer(1)); // refused
#else
    return transaction.commit(Committer(1), Allowance(2));
#endif
}
