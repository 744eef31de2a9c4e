#include "routes.h"

namespace second {
namespace {

constexpr size_t most_steps = 255;

// Where the route is at the tick: at its last place from its arrival on.
Place place_at(const Route &route, size_t tick) {
    return tick < route.size() ? route[tick] : route.back();
}

bool steps_are_lawful(const Floor &floor, const Route &route) {
    for (size_t tick = 1; tick < route.size(); ++tick) {
        const Place from = route[tick - 1];
        const Place to = route[tick];
        if (from != to && !floor.joined(from, to)) return false;
    }
    return true;
}

}  // namespace

Number judge_route(const Floor &floor, const Trip &trip, const Route &route) {
    for (Place place : route)
        if (!floor.has(place)) return no_place;
    if (route.empty() || route.size() > most_steps + 1) return no_route;
    if (route.front() != trip.start || route.back() != trip.target) return no_route;
    if (!steps_are_lawful(floor, route)) return no_route;
    const size_t steps = route.size() - 1;
    const bool last_waits = steps > 0 && route[steps - 1] == route[steps];
    return last_waits ? no_route : taken;
}

bool in_conflict(const Route &one, const Route &other) {
    const size_t ticks = std::max(one.size(), other.size());  // later both rest
    for (size_t tick = 0; tick < ticks; ++tick) {
        if (place_at(one, tick) == place_at(other, tick)) return true;
        if (tick == 0) continue;
        if (place_at(one, tick - 1) == place_at(other, tick) &&
            place_at(one, tick) == place_at(other, tick - 1)) return true;
    }
    return false;
}

}  // namespace second
