#include "corridor.h"

#include "search.h"

namespace second {
namespace {

// Whether the cart goes to the end of the corridor as asked: up to tick `last` by the move from the
// place before the end only, and not at all at a tick u with u + k < other_last.
bool goes_as_asked(const Floor &floor, const Trip &trip, CartBans bans, Place before_end, Place end,
                   Tick last, Tick other_last, unsigned k) {
    const Tick early = other_last > k ? other_last - k : 0;  // the ticks u are those below
    if (first_stand(floor, trip.start, bans, end, early)) return false;
    bans.moves.push_back({before_end, end, 0, for_ever});
    return !first_stand(floor, trip.start, bans, end, last + 1);
}

bool starts_inside(const Corridor &corridor, Place start) {
    return std::find(corridor.begin() + 1, corridor.end() - 1, start) != corridor.end() - 1;
}

bool all_differ(Corridor corridor) {
    std::sort(corridor.begin(), corridor.end());
    return std::adjacent_find(corridor.begin(), corridor.end()) == corridor.end();
}

}  // namespace

std::optional<Corridor> follow_corridor(const Floor &floor, Place p, Place q, unsigned k) {
    if (k < 1 || k > longest_corridor || !floor.joined(p, q)) return std::nullopt;
    Corridor corridor{p, q};
    while (corridor.size() <= k) {
        const Place came_from = corridor[corridor.size() - 2];
        const Neighbours &around = floor.neighbours[corridor.back()];
        if (around.count != 2) return std::nullopt;
        corridor.push_back(around.places[0] == came_from ? around.places[1] : around.places[0]);
    }
    if (!all_differ(corridor)) return std::nullopt;
    return corridor;
}

bool pass_only_through(const Floor &floor, const std::vector<Trip> &trips,
                       const std::vector<Ban> &bans, const Corridor &corridor, const Passing &passing) {
    const Trip &trip_a = trips[passing.a];
    const Trip &trip_b = trips[passing.b];
    if (starts_inside(corridor, trip_a.start) || starts_inside(corridor, trip_b.start)) return false;
    const unsigned k = static_cast<unsigned>(corridor.size()) - 1;
    return goes_as_asked(floor, trip_a, bans_on(passing.a, trips, bans), corridor[k - 1], corridor[k],
                         passing.m, passing.n, k) &&
           goes_as_asked(floor, trip_b, bans_on(passing.b, trips, bans), corridor[1], corridor[0],
                         passing.n, passing.m, k);
}

}  // namespace second
