// Making a call through the header, and saying which it was if the program crashes in it.
#pragma once

#include "calls.h"

// The call's number; one that no call gives, if its bytes were changed by any call but one that is done and writes into a buffer.
// No bytes are passed as a null pointer. What the call leaves of them is told where it is asked for.
uint32_t run(const Call &call, uint8_t *region, size_t region_len, uint8_t *answer, size_t answer_len,
             std::string *left = nullptr);

// From now on a crash is a failed check, in this part of the program: it prints the call, if it is one of `run`, and the
// closing line.
void watch_for_crashes(const char *part);
