// A site's number is no committer's.
#include "dehlbazin.hpp"

using namespace dehlbazin;

Result<Done> planner(Settings &settings, SiteNumber site, Committer committer)
{
#ifdef REFUSED
    return settings.add_committer(site, "planner"); // refused
#else
    return settings.add_committer(committer, "planner");
#endif
}
