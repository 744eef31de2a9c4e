#include "splits.h"

#include "corridor.h"

namespace second {
namespace {

struct Asked {
    const Floor &floor;
    const std::vector<Trip> &trips;
    const std::vector<Ban> &bans;

    bool has_cart(unsigned cart) const { return cart < trips.size(); }
    bool two_carts(unsigned a, unsigned b) const { return has_cart(a) && has_cart(b) && a != b; }
};

// a(1) b(1) p(2) t(2)
Number vertex(const Asked &asked, Bytes operands, Sides &sides) {
    const unsigned a = operands[0], b = operands[1];
    const Place p = operands.two(2);
    const Tick t = operands.two(4);
    if (!asked.two_carts(a, b)) return no_cart;
    if (!asked.floor.has(p)) return no_place;
    if (t > most_ticks) return bad_tick;
    sides = {stand_ban(a, p, t, t), stand_ban(b, p, t, t)};
    return taken;
}

// a(1) b(1) p(2) q(2) t(2)
Number edge(const Asked &asked, Bytes operands, Sides &sides) {
    const unsigned a = operands[0], b = operands[1];
    const Place p = operands.two(2), q = operands.two(4);
    const Tick t = operands.two(6);
    if (!asked.two_carts(a, b)) return no_cart;
    if (!asked.floor.has(p) || !asked.floor.has(q)) return no_place;
    if (t == 0 || t > most_ticks) return bad_tick;
    if (!asked.floor.joined(p, q)) return unlawful;
    sides = {move_ban(a, p, q, t, t), move_ban(b, q, p, t, t)};
    return taken;
}

// a(1) t(2)
Number target(const Asked &asked, Bytes operands, Sides &sides) {
    const unsigned a = operands[0];
    const Tick t = operands.two(1);
    if (!asked.has_cart(a)) return no_cart;
    if (t > most_ticks) return bad_tick;
    sides = {late_ban(a, t), by_ban(a, t)};
    return taken;
}

// a(1) b(1) p(2) q(2) k(1) m(2) n(2)
Number corridor(const Asked &asked, Bytes operands, Sides &sides) {
    const unsigned a = operands[0], b = operands[1];
    const Place p = operands.two(2), q = operands.two(4);
    const unsigned k = operands[6];
    const Tick m = operands.two(7), n = operands.two(9);
    if (!asked.two_carts(a, b)) return no_cart;
    if (!asked.floor.has(p) || !asked.floor.has(q)) return no_place;
    if (m > most_ticks || n > most_ticks) return bad_tick;
    const std::optional<Corridor> places = follow_corridor(asked.floor, p, q, k);
    if (!places) return unlawful;
    const Passing passing{a, b, m, n};
    if (!pass_only_through(asked.floor, asked.trips, asked.bans, *places, passing)) return unlawful;
    sides = {stand_ban(a, places->back(), 0, m), stand_ban(b, places->front(), 0, n)};
    return taken;
}

}  // namespace

size_t operand_bytes(uint8_t letter) {
    switch (letter) {
    case 'V':
        return 6;
    case 'E':
        return 8;
    case 'T':
        return 3;
    case 'K':
        return 11;
    default:
        return 0;
    }
}

Number split_sides(const Floor &floor, const std::vector<Trip> &trips, const std::vector<Ban> &bans,
                   uint8_t letter, Bytes operands, Sides &sides) {
    const Asked asked{floor, trips, bans};
    switch (letter) {
    case 'V':
        return vertex(asked, operands, sides);
    case 'E':
        return edge(asked, operands, sides);
    case 'T':
        return target(asked, operands, sides);
    case 'K':
        return corridor(asked, operands, sides);
    default:
        return bad_letter;
    }
}

}  // namespace second
