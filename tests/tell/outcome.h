// What a plan comes to: the line that `settle` prints, and the sentence that says what it means.
#pragma once

#include "../second/check.h"

#include <string>

namespace tell {

// The verdict's word and number, as in a standing and in the line of `settle`.
std::string standing_text(const second::Standing &standing);

// The line of `settle` for a fault.
std::string fault_text(const second::Fault &fault);

// What a settlement means for the hall.
std::string meaning(const second::Standing &standing, unsigned claim);

}  // namespace tell
