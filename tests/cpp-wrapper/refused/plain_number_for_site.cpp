// A number that says nothing of its kind is no site's.
#include "dehlbazin.hpp"

using namespace dehlbazin;

Settings planner()
{
#ifdef REFUSED
    return Settings(Setting::normal, Mode::updates, 7); // refused
#else
    return Settings(Setting::normal, Mode::updates, SiteNumber(7));
#endif
}
