// A text that was written is looked at before it is read: it may have been refused.
#include "dehlbazin.hpp"

using namespace dehlbazin;

Result<uint64_t> planner(const View &from, Store &to)
{
#ifdef REFUSED
    return to.read_packed(from.packed_text()); // refused
#else
    return to.read_packed(from.packed_text().value());
#endif
}
