// The line of a standing.
#pragma once

#include "../second/check.h"

#include <ostream>

namespace tell {

void tell_standing(std::ostream &out, const second::Check &check);

// A check whose opening is refused stands as it started.
void tell_barred(std::ostream &out, second::Number number);

}  // namespace tell
