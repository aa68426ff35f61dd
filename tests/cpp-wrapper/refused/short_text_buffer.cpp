// A buffer of another size is passed with its size.
#include "dehlbazin.hpp"

using namespace dehlbazin;

Result<size_t> planner(const View &view, std::array<uint8_t, 100> &buffer)
{
#ifdef REFUSED
    return view.write_packed(buffer); // refused
#else
    return view.write_packed(buffer.data(), buffer.size());
#endif
}
