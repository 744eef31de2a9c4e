#include "conflict_reasons.h"

#include "text.h"

namespace tell {
namespace {

using second::Place;
using second::Route;

Place place_at(const Route &route, size_t tick) { return route[std::min(tick, route.size() - 1)]; }

std::string step(Place from, Place to) { return "from " + str(from) + " to " + str(to); }

}  // namespace

std::optional<std::string> conflict_reason(const Route &one, const Route &other) {
    const size_t ticks = std::max(one.size(), other.size());  // later both rest
    for (size_t tick = 0; tick < ticks; ++tick) {
        const Place here = place_at(one, tick), next = place_at(one, tick + 1);
        const Place there = place_at(other, tick), its_next = place_at(other, tick + 1);
        if (here == there) return "both at " + str(here) + " at tick " + str(tick);
        if (here == its_next && next == there)
            return step(here, next) + " against its step " + step(there, its_next) + ", arriving at tick " +
                   str(tick + 1);
    }
    return std::nullopt;
}

}  // namespace tell
