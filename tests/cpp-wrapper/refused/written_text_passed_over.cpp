// Whether a text was written is looked at.
#include "dehlbazin.hpp"

using namespace dehlbazin;

void planner(const View &view, PackedTextBuffer &buffer)
{
#ifdef REFUSED
    view.write_packed(buffer); // refused
#else
    (void)view.write_packed(buffer);
#endif
}
