// A hall with carts, and a plan for them.
#pragma once

#include "../generate/hall.h"

namespace differential {

using generate::File;

struct Case {
    generate::Hall hall;
    std::vector<generate::Trip> trips;
    int claim;
    File plan;
};

}  // namespace differential
