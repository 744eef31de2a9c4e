#include "opening_reasons.h"

#include "../second/check.h"

namespace tell {
namespace {

using second::Floor;
using second::Place;
using second::Trip;
using Trips = std::vector<Trip>;

Answer off_the_floor(const Floor &floor, const char *end, Place place, size_t cart) {
    if (floor.has(place)) return std::nullopt;
    return Refusal{second::no_place,
                   std::string("the ") + end + " " + str(place) + " of cart " + str(cart) + " is not on the floor"};
}

Answer places_answer(const Floor &floor, const Trips &trips) {
    for (size_t cart = 0; cart < trips.size(); ++cart) {
        if (const Answer start = off_the_floor(floor, "start", trips[cart].start, cart)) return start;
        if (const Answer target = off_the_floor(floor, "target", trips[cart].target, cart)) return target;
    }
    return std::nullopt;
}

Answer share(const char *end, size_t before, Place one, size_t cart, Place other) {
    if (one != other) return std::nullopt;
    return Refusal{second::shared,
                   "carts " + str(before) + " and " + str(cart) + " share the " + end + " " + str(one)};
}

// A cart against those before it.
Answer sharing_answer(const Trips &trips, size_t cart) {
    const Trip &trip = trips[cart];
    for (size_t before = 0; before < cart; ++before) {
        if (const Answer start = share("start", before, trips[before].start, cart, trip.start)) return start;
        if (const Answer target = share("target", before, trips[before].target, cart, trip.target)) return target;
    }
    return std::nullopt;
}

Answer sharing_answer(const Trips &trips) {
    for (size_t cart = 0; cart < trips.size(); ++cart)
        if (const Answer shared = sharing_answer(trips, cart)) return shared;
    return std::nullopt;
}

}  // namespace

Answer cart_count_answer(size_t carts) {
    if (carts >= 1 && carts <= second::most_carts) return std::nullopt;
    return Refusal{second::carts, str(carts) + " carts, and a check has 1 to " + str(second::most_carts)};
}

Answer opening_answer(const Floor &floor, const Trips &trips, unsigned claim) {
    if (claim > second::most_claim)
        return Refusal{second::high_claim, "the claim " + str(claim) + " is above " + str(second::most_claim)};
    if (const Answer places = places_answer(floor, trips)) return places;
    return sharing_answer(trips);
}

}  // namespace tell
