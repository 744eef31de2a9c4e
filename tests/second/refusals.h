// The numbers of docs/REFUSALS.md and docs/FORMATS.md, and where in a file a fault stands.
#pragma once

#include <cstddef>
#include <cstdint>

namespace second {

enum Number : unsigned {
    taken = 0,  // no refusal
    headless = 1,
    gauge = 2,
    ragged = 3,
    strange_sign = 4,
    count = 5,
    no_place = 6,
    twice = 7,
    crowded = 8,
    carts = 9,
    shared = 10,
    high_claim = 11,
    no_cart = 12,
    shown_already = 13,
    no_route = 14,
    conflict = 15,
    nothing_open = 16,
    full = 17,
    bad_tick = 18,
    unlawful = 19,
    cheaper_set = 20,
    bad_letter = 21,
    cut_short = 22,
    bytes_behind = 23,
};

enum class Layer : uint8_t { map = 1, file = 2, call = 3 };

// The first fault of a file. The readers throw it, since reading stops there.
struct Fault {
    Layer layer;
    Number number;
    size_t offset;
};

}  // namespace second
