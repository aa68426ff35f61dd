// A record is written into bytes that can be written.
#include "dehlbazin.hpp"

using namespace dehlbazin;

Result<size_t> planner(const Settings &settings, const SettingsBuffer &constant, SettingsBuffer &buffer)
{
#ifdef REFUSED
    return settings.write(constant, SettingsVersion::second); // refused
#else
    return settings.write(buffer, SettingsVersion::second);
#endif
}
