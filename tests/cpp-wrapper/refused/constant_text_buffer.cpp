// A text is written into bytes that can be written.
#include "dehlbazin.hpp"

using namespace dehlbazin;

Result<size_t> planner(const View &view, const PackedTextBuffer &constant, PackedTextBuffer &buffer)
{
#ifdef REFUSED
    return view.write_packed(constant); // refused
#else
    return view.write_packed(buffer);
#endif
}
