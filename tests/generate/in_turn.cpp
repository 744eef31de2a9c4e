#include "in_turn.h"

namespace generate {
namespace {

// Bans for the cart all that would conflict with the route.
void ban_conflicts(std::vector<Ban> &bans, int cart, const Route &route) {
    const int length = static_cast<int>(route.size()) - 1;
    for (int tick = 0; tick <= length; ++tick) {
        const int p = place_at(route, tick);
        bans.push_back({BanKind::stand, cart, p, p, tick, tick == length ? for_ever : tick});
        if (tick == 0) continue;
        bans.push_back({BanKind::move, cart, p, place_at(route, tick - 1), tick, tick});
    }
}

}  // namespace

std::vector<Route> routes_in_turn(const Problem &problem) {
    std::vector<Route> routes(problem.trips.size());
    for (size_t cart = 0; cart < routes.size(); ++cart) {
        std::vector<Ban> bans;
        for (size_t other = 0; other < cart; ++other)
            if (!routes[other].empty()) ban_conflicts(bans, static_cast<int>(cart), routes[other]);
        const Asked asked = asked_of(static_cast<int>(cart), problem.trips, bans);
        find_route(problem.hall, problem.trips[cart], asked, {}, routes[cart]);
    }
    return routes;
}

}  // namespace generate
