// Routes, given as lists of places, and their conflicts.
#pragma once

#include "bans.h"
#include "refusals.h"

namespace second {

using Route = std::vector<Place>;  // the place at each tick, up to the arrival

// no_place, no_route, or taken if the list is a route of the trip.
Number judge_route(const Floor &floor, const Trip &trip, const Route &route);

// Whether two routes conflict; neither is empty.
bool in_conflict(const Route &one, const Route &other);

}  // namespace second
