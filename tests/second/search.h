// Where carts can stand, their least lengths, and whether a cheaper set of routes exists.
#pragma once

#include "bans.h"
#include "row.h"

#include <optional>

namespace second {

// The walks of a cart from its start, tick by tick.
class Walks {
public:
    // At tick 0. The cart's walks keep the stands and moves of its bans.
    Walks(const Floor &floor, Place start, const CartBans &bans);

    // Whether the cart can stand at the place now.
    bool at(Place place) const { return now.has(place); }

    // Whether the cart can have come to the place now from another place.
    bool enters(Place place) const;

    // Whether the cart can stand nowhere now, and so nowhere later.
    bool ended() const { return now.empty(); }

    // Goes on to the next tick.
    void step();

private:
    bool may_stand(Place place) const;
    bool may_move(Place from, Place to) const;
    void find_moves_now();

    const Floor &floor;
    const CartBans &bans;
    Tick tick = 0;
    std::vector<CartBans::Move> moves_now;  // the move bans that hold for a step that arrives now
    Row before;  // the row of the tick before; without places at tick 0
    Row now;
};

// The first tick below the limit at which a cart that starts there can stand at the place.
std::optional<Tick> first_stand(const Floor &floor, Place start, const CartBans &bans, Place place, Tick limit);

// The least length of a cart under the bans, if there is one below the limit.
std::optional<Tick> least_length(const Floor &floor, const std::vector<Trip> &trips,
                                 const std::vector<Ban> &bans, unsigned cart, Tick limit);

// Whether some set of routes that keeps the bans sums below the claim.
bool cheaper_exists(const Floor &floor, const std::vector<Trip> &trips,
                    const std::vector<Ban> &bans, unsigned claim);

}  // namespace second
