// A text has a size: without one it would end at its first zero, and lines behind that would be missed.
#include "dehlbazin.hpp"

using namespace dehlbazin;

Result<uint64_t> planner(Store &store, const char *file, size_t size)
{
#ifdef REFUSED
    return store.read_packed(file); // refused
#else
    return store.read_packed(std::string_view(file, size));
#endif
}
