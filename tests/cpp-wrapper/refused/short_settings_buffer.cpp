// A buffer of another size is passed with its size.
#include "dehlbazin.hpp"

using namespace dehlbazin;

Result<size_t> planner(const Settings &settings, std::array<uint8_t, 100> &buffer)
{
#ifdef REFUSED
    return settings.write(buffer, SettingsVersion::second); // refused
#else
    return settings.write(buffer.data(), buffer.size(), SettingsVersion::second);
#endif
}
