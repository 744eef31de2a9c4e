// Shortest routes of one cart under bans.
#pragma once

#include "hall.h"

#include <optional>

namespace generate {

using Route = std::vector<int>;  // the place at each tick, up to the arrival

constexpr int most_steps = 255;
constexpr int for_ever = 1 << 20;

enum class BanKind { stand, move, late, by };

struct Ban {
    BanKind kind;
    int cart;
    int from, to;     // of a stand ban, both are the place
    int first, last;  // of a late or by ban, both are its tick
};

// What the bans ask of one cart: of each place and step at a tick, and of its arrival.
struct Asked {
    std::vector<Ban> bans;  // stand and move bans only, closures among them
    int least = 0;
    int most = for_ever;

    bool may_stand(int place, int tick) const;
    bool may_move(int from, int to, int tick) const;
    bool rests_from(int place, int tick) const;  // whether it may stay there from the tick on
};

Asked asked_of(int cart, const std::vector<Trip> &trips, const std::vector<Ban> &bans);

inline int place_at(const Route &route, int tick) {
    return static_cast<size_t>(tick) < route.size() ? route[static_cast<size_t>(tick)] : route.back();
}

// Whether the route of the cart keeps the ban.
bool keeps(const Route &route, int cart, const std::vector<Trip> &trips, const Ban &ban);

enum class Found { route, none, too_long };

// A shortest route; among these one with the fewest conflicts with the others, which may be empty.
// It is too long if it would have more than 255 steps.
Found find_route(const Hall &hall, const Trip &trip, const Asked &asked,
                 const std::vector<Route> &others, Route &route);

// The first tick up to the limit at which the cart can be at the place, if there is one.
std::optional<int> first_visit(const Hall &hall, int start, const Asked &asked, int place, int limit);

}  // namespace generate
