// A region of another size is none.
#include "dehlbazin.hpp"

using namespace dehlbazin;

Result<Store> planner(Region &region, std::array<uint8_t, DEHLBAZIN_REGION_SIZE - 1> &other)
{
#ifdef REFUSED
    return Store::open(other); // refused
#else
    return Store::open(region);
#endif
}
