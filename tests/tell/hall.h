// The hall: its places and connections, and the places' neighbours or a picture.
#pragma once

#include "../second/bans.h"
#include "../second/bytes.h"

#include <ostream>

namespace tell {

// The map file is the one that the floor was read from.
void tell_hall(std::ostream &out, const second::Floor &floor, second::Bytes map,
               const std::vector<second::Trip> &trips);

}  // namespace tell
