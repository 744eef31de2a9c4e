// Corridors, and whether two carts can only pass through one as a split of letter K asks.
#pragma once

#include "bans.h"

#include <optional>

namespace second {

constexpr unsigned longest_corridor = 63;

using Corridor = std::vector<Place>;  // c0 to ck

// The corridor of k steps that begins with p and q, if it is one; both are on the floor.
std::optional<Corridor> follow_corridor(const Floor &floor, Place p, Place q, unsigned k);

// Cart a is to pass from c0 to ck by tick m, cart b from ck to c0 by tick n.
struct Passing {
    unsigned a, b;
    Tick m, n;
};

bool pass_only_through(const Floor &floor, const std::vector<Trip> &trips,
                       const std::vector<Ban> &bans, const Corridor &corridor, const Passing &passing);

}  // namespace second
