// A number that says nothing of its kind is no version that a reader knows.
#include "dehlbazin.hpp"

using namespace dehlbazin;

Result<SettingsView> planner(const SettingsBuffer &record, size_t size)
{
#ifdef REFUSED
    return SettingsView::open(record.data(), size, 2); // refused
#else
    return SettingsView::open(record.data(), size, SettingsVersion::second);
#endif
}
