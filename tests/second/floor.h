// A floor: numbered places, and for each an ordered list of its neighbours.
#pragma once

#include <algorithm>
#include <array>
#include <cstddef>
#include <vector>

namespace second {

constexpr size_t most_places = 1024;
constexpr size_t most_neighbours = 8;

using Place = unsigned;

struct Neighbours {
    size_t count = 0;
    std::array<Place, most_neighbours> places{};

    const Place *begin() const { return places.data(); }
    const Place *end() const { return places.data() + count; }
};

struct Floor {
    std::vector<Neighbours> neighbours;  // by place

    bool has(Place p) const { return p < neighbours.size(); }

    // Whether q is a neighbour of p; both are on the floor.
    bool joined(Place p, Place q) const {
        const Neighbours &around = neighbours[p];
        return std::find(around.begin(), around.end(), q) != around.end();
    }

    // Lists q at p; p has less than eight neighbours.
    void list(Place p, Place q) {
        Neighbours &around = neighbours[p];
        around.places[around.count++] = q;
    }
};

}  // namespace second
