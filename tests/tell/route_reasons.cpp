#include "route_reasons.h"

#include "conflict_reasons.h"

namespace tell {
namespace {

using second::Check;
using second::Floor;
using second::Place;
using second::Route;
using second::Trip;

Answer places_answer(const Floor &floor, const Route &route) {
    for (size_t tick = 0; tick < route.size(); ++tick)
        if (!floor.has(route[tick]))
            return Refusal{second::no_place,
                           "place " + str(route[tick]) + " at tick " + str(tick) + " is not on the floor"};
    return std::nullopt;
}

Refusal no_route(const std::string &reason) { return {second::no_route, reason}; }

Answer ends_answer(const Trip &trip, const Route &route) {
    if (route.front() != trip.start)
        return no_route("it starts at " + str(route.front()) + " and not at " + str(trip.start));
    if (route.back() != trip.target)
        return no_route("it ends at " + str(route.back()) + " and not at " + str(trip.target));
    return std::nullopt;
}

Answer steps_answer(const Floor &floor, const Route &route) {
    for (size_t tick = 1; tick < route.size(); ++tick) {
        const Place from = route[tick - 1], to = route[tick];
        if (from != to && !floor.joined(from, to))
            return no_route("from " + str(from) + " to " + str(to) + ", arriving at tick " + str(tick) +
                            ", is neither a wait nor a step to a neighbour");
    }
    return std::nullopt;
}

// A list in a file is never empty and never has more than 255 steps.
Answer list_answer(const Floor &floor, const Trip &trip, const Route &route) {
    if (const Answer ends = ends_answer(trip, route)) return ends;
    if (const Answer steps = steps_answer(floor, route)) return steps;
    const size_t steps = route.size() - 1;
    if (steps > 0 && route[steps - 1] == route[steps]) return no_route("its last step is a wait at the target");
    return std::nullopt;
}

Answer conflict_answer(const Check &check, const Route &route) {
    for (unsigned shown : check.shown())
        if (const std::optional<std::string> met = conflict_reason(route, check.route(shown)))
            return Refusal{second::conflict, "with cart " + str(shown) + ", " + *met};
    return std::nullopt;
}

}  // namespace

Answer show_answer(const Check &check, unsigned cart, const Route &route) {
    if (cart >= check.trips().size()) return Refusal{second::no_cart, "there is no cart " + str(cart)};
    if (!check.route(cart).empty())
        return Refusal{second::shown_already, "cart " + str(cart) + " has a route already"};
    if (const Answer places = places_answer(check.floor(), route)) return places;
    if (const Answer wrong = list_answer(check.floor(), check.trips()[cart], route)) return wrong;
    return conflict_answer(check, route);
}

}  // namespace tell
