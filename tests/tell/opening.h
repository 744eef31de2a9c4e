// The heading of a plan, told while it is read.
#pragma once

#include "../second/check.h"

#include <ostream>

namespace tell {

// Tells the heading, opens the check, and goes behind the heading. Throws the fault that it has.
second::Check tell_opening(std::ostream &out, const second::Floor &floor, second::Bytes plan, size_t &at);

// The trips of a heading, and none if it has a fault of the file.
std::vector<second::Trip> trips_of_heading(second::Bytes plan);

}  // namespace tell
