// The log setting and the usual mode do not change places.
#include "dehlbazin.hpp"

using namespace dehlbazin;

Settings planner()
{
#ifdef REFUSED
    return Settings(Mode::updates, Setting::normal); // refused
#else
    return Settings(Setting::normal, Mode::updates);
#endif
}
