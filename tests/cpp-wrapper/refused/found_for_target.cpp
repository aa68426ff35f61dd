// What a name reads comes with its place, and is no target alone.
#include "dehlbazin.hpp"

using namespace dehlbazin;

std::optional<Target> planner(const Found &found)
{
#ifdef REFUSED
    return found; // refused
#else
    return found.target;
#endif
}
