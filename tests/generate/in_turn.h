// Routes free of conflict that need not have the least sum: each cart gives way to those before it.
#pragma once

#include "splits.h"

namespace generate {

// A cart for which no route is found has an empty one.
std::vector<Route> routes_in_turn(const Problem &problem);

}  // namespace generate
