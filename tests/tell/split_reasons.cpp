#include "split_reasons.h"

#include "../second/splits.h"
#include "corridor_reasons.h"

namespace tell {
namespace {

using second::Check;
using second::Floor;

Answer room_answer(const Check &check) {
    if (check.open_branches() == 0) return Refusal{second::nothing_open, "no branch is open"};
    if (check.current().size() >= second::most_splits_on_a_branch)
        return Refusal{second::full, "the branch lies under " + str(second::most_splits_on_a_branch) + " splits"};
    if (check.splits() >= second::most_splits)
        return Refusal{second::full, str(second::most_splits) + " splits were taken"};
    return std::nullopt;
}

Answer carts_answer(size_t carts, const Split &split) {
    for (unsigned cart : split.carts)
        if (cart >= carts) return Refusal{second::no_cart, "there is no cart " + str(cart)};
    if (split.carts.size() == 2 && split.carts[0] == split.carts[1])
        return Refusal{second::no_cart, "cart " + str(split.carts[0]) + " is named twice"};
    return std::nullopt;
}

Answer places_answer(const Floor &floor, const Split &split) {
    for (second::Place place : split.places)
        if (!floor.has(place)) return Refusal{second::no_place, "place " + str(place) + " is not on the floor"};
    return std::nullopt;
}

Answer ticks_answer(const Split &split) {
    for (second::Tick tick : split.ticks) {
        if (tick > second::most_ticks)
            return Refusal{second::bad_tick, "tick " + str(tick) + " is above " + str(second::most_ticks)};
        if (split.letter == 'E' && tick == 0) return Refusal{second::bad_tick, "a move does not arrive at tick 0"};
    }
    return std::nullopt;
}

// What the letter itself asks.
Answer letter_answer(const Check &check, const Split &split) {
    std::optional<std::string> reason;
    if (split.letter == 'E') reason = apart(check.floor(), split);
    if (split.letter == 'K') reason = corridor_reason(check, split);
    if (!reason) return std::nullopt;
    return Refusal{second::unlawful, *reason};
}

}  // namespace

Answer split_answer(const Check &check, const Split &split) {
    if (const Answer room = room_answer(check)) return room;
    if (const Answer carts = carts_answer(check.trips().size(), split)) return carts;
    if (const Answer places = places_answer(check.floor(), split)) return places;
    if (const Answer ticks = ticks_answer(split)) return ticks;
    return letter_answer(check, split);
}

}  // namespace tell
