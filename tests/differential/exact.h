// The least sum of a conflict-free set of routes, by a search of all carts at once.
#pragma once

#include "../generate/hall.h"

#include <optional>

namespace differential {

// Whether the search is small enough: a few carts on a few places.
bool is_small(const generate::Hall &hall, const std::vector<generate::Trip> &trips);

// The least sum, if there is any such set.
std::optional<int> least_sum(const generate::Hall &hall, const std::vector<generate::Trip> &trips);

}  // namespace differential
