#include "passing_reasons.h"

#include "../second/search.h"
#include "text.h"

namespace tell {
namespace {

using second::CartBans;
using second::Check;
using second::Corridor;
using second::Place;
using second::Tick;

// A cart that is to go to the end of the corridor by its last step; `by` is `m` or `n`.
struct Passer {
    unsigned cart;
    Place before_end, end;
    char by;
    Tick last;
};

std::string can_be(const Passer &passer, Tick tick) {
    return "cart " + str(passer.cart) + " can be at " + str(passer.end) + " at tick " + str(tick);
}

// That the cart comes to the end in time without the corridor's last step.
Reason without_the_step(const Check &check, const Passer &passer) {
    CartBans bans = second::bans_on(passer.cart, check.trips(), check.current());
    bans.moves.push_back({passer.before_end, passer.end, 0, second::for_ever});
    const Place start = check.trips()[passer.cart].start;
    const auto tick = second::first_stand(check.floor(), start, bans, passer.end, passer.last + 1);
    if (!tick) return std::nullopt;
    return can_be(passer, *tick) + " without the step from " + str(passer.before_end) + " to " + str(passer.end) +
           ", and " + passer.by + " is " + str(passer.last);
}

// That the cart is at the end so early that the other one would still be in time after it.
Reason too_early(const Check &check, const Passer &passer, const Passer &other, unsigned length) {
    const CartBans bans = second::bans_on(passer.cart, check.trips(), check.current());
    const Tick limit = other.last > length ? other.last - length : 0;
    const Place start = check.trips()[passer.cart].start;
    const auto tick = second::first_stand(check.floor(), start, bans, passer.end, limit);
    if (!tick) return std::nullopt;
    return can_be(passer, *tick) + ", and " + str(*tick) + " + " + str(length) + " is below " + other.by +
           ", which is " + str(other.last);
}

}  // namespace

Reason passing_reason(const Check &check, const Split &split, const Corridor &corridor) {
    const unsigned k = split.length;
    const Passer a{split.carts[0], corridor[k - 1], corridor[k], 'm', split.ticks[0]};
    const Passer b{split.carts[1], corridor[1], corridor[0], 'n', split.ticks[1]};
    if (const Reason other_way = without_the_step(check, a)) return other_way;
    if (const Reason other_way = without_the_step(check, b)) return other_way;
    if (const Reason early = too_early(check, b, a, k)) return early;
    return too_early(check, a, b, k);
}

}  // namespace tell
