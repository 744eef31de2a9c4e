// The text that the program `account` has to print, worked out from docs/ alone.
#pragma once

#include "../second/bytes.h"

#include <ostream>

namespace tell {

void tell(std::ostream &out, second::Bytes map, second::Bytes plan);

}  // namespace tell
