// Whether a committer was added is looked at.
#include "dehlbazin.hpp"

using namespace dehlbazin;

void planner(Settings &settings)
{
#ifdef REFUSED
    settings.add_committer(Committer(12), "planner"); // refused
#else
    (void)settings.add_committer(Committer(12), "planner");
#endif
}
