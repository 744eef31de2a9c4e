// Why a split of letter `K` is unlawful, and one of letter `E`.
#pragma once

#include "../second/check.h"
#include "split.h"

#include <optional>
#include <string>

namespace tell {

using Reason = std::optional<std::string>;

// That the two places of a split are not neighbours.
Reason apart(const second::Floor &floor, const Split &split);

// What is not so of a corridor whose carts, places and ticks are as they have to be.
Reason corridor_reason(const second::Check &check, const Split &split);

}  // namespace tell
