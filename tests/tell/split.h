// A split of a plan: its letter and what its operands name, in their order.
#pragma once

#include "../second/commands.h"

#include <string>
#include <vector>

namespace tell {

struct Split {
    uint8_t letter;
    std::vector<unsigned> carts;        // a, or a and b
    std::vector<second::Place> places;  // p and q
    unsigned length;                    // k, of `K` only
    std::vector<second::Tick> ticks;    // t, or m and n
};

Split split_of(const second::Command &command);

// The split as it is printed.
std::string split_text(const Split &split);

}  // namespace tell
