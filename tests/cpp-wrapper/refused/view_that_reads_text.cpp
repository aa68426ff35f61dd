// A text that is read changes the store, so a view reads none.
#include "dehlbazin.hpp"

using namespace dehlbazin;

Result<uint64_t> planner(View &view, Store &store, std::string_view text)
{
#ifdef REFUSED
    (void)store;
    return view.read_packed(text); // refused
#else
    (void)view;
    return store.read_packed(text);
#endif
}
