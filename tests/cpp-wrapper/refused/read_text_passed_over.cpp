// Whether a text was read is looked at.
#include "dehlbazin.hpp"

using namespace dehlbazin;

void planner(Store &store, std::string_view text)
{
#ifdef REFUSED
    store.read_packed(text); // refused
#else
    (void)store.read_packed(text);
#endif
}
