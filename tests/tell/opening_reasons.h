// Why an opening is refused.
#pragma once

#include "../second/bans.h"
#include "refusal.h"

namespace tell {

Answer cart_count_answer(size_t carts);

// Why an opening with as many carts as a check has is refused.
Answer opening_answer(const second::Floor &floor, const std::vector<second::Trip> &trips, unsigned claim);

}  // namespace tell
