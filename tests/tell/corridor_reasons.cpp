#include "corridor_reasons.h"

#include "../second/corridor.h"
#include "passing_reasons.h"
#include "text.h"

namespace tell {
namespace {

using second::Check;
using second::Corridor;
using second::Floor;
using second::Neighbours;
using second::Place;

Place beyond(const Neighbours &around, Place came_from) {
    return around.places[0] == came_from ? around.places[1] : around.places[0];
}

// Lays the corridor from its first two places on, up to an inner place that does not lead on.
Reason lay(const Floor &floor, unsigned length, Corridor &corridor) {
    while (corridor.size() <= length) {
        const Place inner = corridor.back();
        const Neighbours &around = floor.neighbours[inner];
        if (around.count != 2)
            return "the inner place " + str(inner) + " has " + str(around.count) + " neighbours";
        corridor.push_back(beyond(around, corridor[corridor.size() - 2]));
    }
    return std::nullopt;
}

// The first place that comes again.
Reason twice(const Corridor &corridor) {
    for (auto place = corridor.begin(); place != corridor.end(); ++place)
        if (std::find(place + 1, corridor.end(), *place) != corridor.end())
            return "place " + str(*place) + " comes twice";
    return std::nullopt;
}

Reason starts_inside(const Check &check, const std::vector<unsigned> &carts, const Corridor &corridor) {
    for (unsigned cart : carts) {
        const Place start = check.trips()[cart].start;
        if (std::find(corridor.begin() + 1, corridor.end() - 1, start) != corridor.end() - 1)
            return "cart " + str(cart) + " starts at the inner place " + str(start);
    }
    return std::nullopt;
}

}  // namespace

Reason apart(const Floor &floor, const Split &split) {
    if (floor.joined(split.places[0], split.places[1])) return std::nullopt;
    return "places " + str(split.places[0]) + " and " + str(split.places[1]) + " are not neighbours";
}

Reason corridor_reason(const Check &check, const Split &split) {
    if (split.length < 1 || split.length > second::longest_corridor)
        return "the length " + str(split.length) + " is not 1 to " + str(second::longest_corridor);
    if (const Reason places = apart(check.floor(), split)) return places;
    Corridor corridor{split.places[0], split.places[1]};
    if (const Reason inner = lay(check.floor(), split.length, corridor)) return inner;
    if (const Reason again = twice(corridor)) return again;
    if (const Reason start = starts_inside(check, split.carts, corridor)) return start;
    return passing_reason(check, split, corridor);
}

}  // namespace tell
