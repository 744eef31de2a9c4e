// Conflicts between routes, and the splits that part them.
#pragma once

#include "path.h"

namespace generate {

struct Conflict {
    int a, b;
    int p, q;  // a goes from p to q while b goes from q to p; of a meeting, p and q are one place
    int tick;  // at which the step arrives
};

// The first conflict of every two routes that have one. Empty routes have none.
std::vector<Conflict> find_conflicts(const std::vector<Route> &routes);

struct Split {
    File command;  // as it stands in a plan
    Ban left, right;
};

struct Problem {
    const Hall &hall;
    const std::vector<Trip> &trips;
};

// V or E.
Split plain_split(const Conflict &conflict);

// T, if one of the carts is at its target for good when they meet.
std::optional<Split> target_split(const Conflict &conflict, const std::vector<Route> &routes);

// K, if they meet in a corridor and each side bans one of the two routes.
std::optional<Split> corridor_split(const Problem &problem, const Conflict &conflict,
                                    const std::vector<Route> &routes, const std::vector<Ban> &bans);

}  // namespace generate
