#include "check.h"

#include "search.h"
#include "splits.h"

namespace second {

Number judge_opening(const Floor &floor, const std::vector<Trip> &trips, unsigned claim) {
    if (trips.empty() || trips.size() > most_carts) return carts;
    if (claim > most_claim) return high_claim;
    for (const Trip &trip : trips)
        if (!floor.has(trip.start) || !floor.has(trip.target)) return no_place;
    for (size_t i = 0; i < trips.size(); ++i)
        for (size_t j = 0; j < i; ++j)
            if (trips[i].start == trips[j].start || trips[i].target == trips[j].target) return shared;
    return taken;
}

Check::Check(const Floor &floor, std::vector<Trip> carts_trips, unsigned claim)
    : floor_(floor), trips_(std::move(carts_trips)), claim_(claim), open(1), routes(trips_.size()) {}

Number Check::show(unsigned cart, const Route &route) {
    if (cart >= trips_.size()) return no_cart;
    if (!routes[cart].empty()) return shown_already;
    const Number number = judge_route(floor_, trips_[cart], route);
    if (number != taken) return number;
    for (unsigned other : carts_shown)
        if (in_conflict(route, routes[other])) return conflict;
    routes[cart] = route;
    carts_shown.push_back(cart);
    return taken;
}

Number Check::split(uint8_t letter, Bytes operands) {
    if (open.empty()) return nothing_open;
    if (open.back().size() >= most_splits_on_a_branch || splits_taken >= most_splits) return full;
    Sides sides;
    const Number number = split_sides(floor_, trips_, open.back(), letter, operands, sides);
    if (number != taken) return number;
    Branch left = open.back();
    left.push_back(sides.left);
    open.back().push_back(sides.right);
    open.push_back(std::move(left));
    ++splits_taken;
    return taken;
}

Number Check::close() {
    if (open.empty()) return nothing_open;
    if (cheaper_exists(floor_, trips_, open.back(), claim_)) return cheaper_set;
    open.pop_back();
    ++closings_taken;
    return taken;
}

Standing Check::standing() const {
    if (!open.empty()) return {Verdict::open, static_cast<unsigned>(open.size())};
    unsigned without_route = 0;
    unsigned sum = 0;
    for (const Route &route : routes) {
        if (route.empty()) ++without_route;
        else sum += static_cast<unsigned>(route.size() - 1);
    }
    if (without_route > 0) return {Verdict::unshown, without_route};
    if (sum != claim_) return {Verdict::othersum, sum};
    return {Verdict::least, claim_};
}

}  // namespace second
