// A store changes its region, so one that can only be read has a view.
#include "dehlbazin.hpp"

using namespace dehlbazin;

Result<View> planner(const Region &region)
{
#ifdef REFUSED
    return View(Store::open(region).value()); // refused
#else
    return View::open(region);
#endif
}
