// A name's number and an object's are not compared.
#include "dehlbazin.hpp"

using namespace dehlbazin;

bool planner(NameNumber name, ObjectNumber object)
{
#ifdef REFUSED
    return name == object; // refused
#else
    return name.number() == object.number();
#endif
}
