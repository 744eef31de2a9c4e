// The four letters: what a split turns a branch's bans into.
#pragma once

#include "bans.h"
#include "bytes.h"
#include "refusals.h"

namespace second {

constexpr Tick most_ticks = 4000;

// How many bytes the letter's operands are; 0 for a letter that is no split's.
size_t operand_bytes(uint8_t letter);

struct Sides {
    Ban left, right;
};

// Works out the two sides' bans under the bans of the branch, or says why not.
// The letter is a split's, and all its operands are there.
Number split_sides(const Floor &floor, const std::vector<Trip> &trips, const std::vector<Ban> &bans,
                   uint8_t letter, Bytes operands, Sides &sides);

}  // namespace second
