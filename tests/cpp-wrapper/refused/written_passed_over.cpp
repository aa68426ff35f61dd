// Whether settings were written is looked at.
#include "dehlbazin.hpp"

using namespace dehlbazin;

void planner(const Settings &settings, SettingsBuffer &buffer)
{
#ifdef REFUSED
    settings.write(buffer, SettingsVersion::second); // refused
#else
    (void)settings.write(buffer, SettingsVersion::second);
#endif
}
