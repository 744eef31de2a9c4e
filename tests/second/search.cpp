#include "search.h"

namespace second {

Walks::Walks(const Floor &floor, Place start, const CartBans &bans) : floor(floor), bans(bans) {
    if (may_stand(start)) now.add(start);
}

bool Walks::may_stand(Place place) const {
    for (const CartBans::Stand &ban : bans.stands)
        if (ban.place == place && ban.first <= tick && tick <= ban.last) return false;
    return true;
}

// Whether the step may arrive now; from and to may be one place.
bool Walks::may_move(Place from, Place to) const {
    for (const CartBans::Move &ban : moves_now)
        if (ban.from == from && ban.to == to) return false;
    return true;
}

void Walks::find_moves_now() {
    moves_now.clear();
    for (const CartBans::Move &ban : bans.moves)
        if (ban.first <= tick && tick <= ban.last) moves_now.push_back(ban);
}

bool Walks::enters(Place place) const {
    if (!now.has(place)) return false;
    for (Place from : floor.neighbours[place])
        if (before.has(from) && may_move(from, place)) return true;
    return false;
}

void Walks::step() {
    ++tick;
    find_moves_now();
    before = now;
    Row after;
    before.for_each([this, &after](Place from) {
        if (may_move(from, from)) after.add(from);
        for (Place to : floor.neighbours[from])
            if (may_move(from, to)) after.add(to);
    });
    for (const CartBans::Stand &ban : bans.stands)
        if (ban.first <= tick && tick <= ban.last) after.remove(ban.place);
    now = after;
}

namespace {

// The least length that no ban on the rest at the target forbids. A cart of length n stands at its
// target at tick n and later, and the waits of its rest arrive at tick n + 1 and later.
std::optional<Tick> least_rest(Place target, const CartBans &bans) {
    Tick least = 0;
    for (const CartBans::Stand &ban : bans.stands) {
        if (ban.place != target || ban.first > ban.last) continue;
        if (ban.last == for_ever) return std::nullopt;
        least = std::max(least, ban.last + 1);
    }
    for (const CartBans::Move &ban : bans.moves) {
        if (ban.from != target || ban.to != target || ban.first > ban.last) continue;
        if (ban.last == for_ever) return std::nullopt;
        least = std::max(least, ban.last);
    }
    return least;
}

}  // namespace

std::optional<Tick> first_stand(const Floor &floor, Place start, const CartBans &bans, Place place, Tick limit) {
    Walks walks(floor, start, bans);
    for (Tick tick = 0; tick < limit && !walks.ended(); ++tick) {
        if (walks.at(place)) return tick;
        walks.step();
    }
    return std::nullopt;
}

std::optional<Tick> least_length(const Floor &floor, const std::vector<Trip> &trips,
                                 const std::vector<Ban> &bans, unsigned cart, Tick limit) {
    const Trip &trip = trips[cart];
    const CartBans on = bans_on(cart, trips, bans);
    const std::optional<Tick> rest = least_rest(trip.target, on);
    if (!rest) return std::nullopt;
    const Tick least = std::max(*rest, on.least_length);
    Walks walks(floor, trip.start, on);
    for (Tick n = 0; n < limit && n <= on.most_length && !walks.ended(); ++n) {
        const bool arrives = n == 0 ? trip.start == trip.target && walks.at(trip.target)
                                    : walks.enters(trip.target);
        if (arrives && n >= least) return n;
        walks.step();
    }
    return std::nullopt;
}

bool cheaper_exists(const Floor &floor, const std::vector<Trip> &trips,
                    const std::vector<Ban> &bans, unsigned claim) {
    unsigned sum = 0;
    for (unsigned cart = 0; cart < trips.size(); ++cart) {
        const std::optional<Tick> length = least_length(floor, trips, bans, cart, claim);
        if (!length) return false;
        sum += *length;
    }
    return sum < claim;
}

}  // namespace second
