// A fragment has a size: text would end at its first zero.
#include "dehlbazin.hpp"

using namespace dehlbazin;

Result<size_t> planner(Receiver &receiver, const char *message, size_t size)
{
#ifdef REFUSED
    return receiver.take(message); // refused
#else
    return receiver.take(std::string_view(message, size));
#endif
}
