// A view changes nothing.
#include "dehlbazin.hpp"

using namespace dehlbazin;

Result<std::string_view> planner(View &view)
{
#ifdef REFUSED
    return view.place_lock(NameNumber(0)); // refused
#else
    return view.name_bytes(NameNumber(0));
#endif
}
