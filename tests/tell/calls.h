// The commands behind the heading, told while they are made.
#pragma once

#include "../second/check.h"

#include <ostream>

namespace tell {

// Tells the commands from the offset to the end. Throws the first fault.
void tell_calls(std::ostream &out, second::Bytes plan, size_t at, second::Check &check);

}  // namespace tell
