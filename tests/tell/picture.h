// The picture of a grid hall.
#pragma once

#include "../second/bans.h"
#include "../second/bytes.h"

#include <ostream>

namespace tell {

// The map file is a grid without a fault.
void tell_picture(std::ostream &out, second::Bytes map, const std::vector<second::Trip> &trips);

}  // namespace tell
