// Random floors, each with its map file.
#pragma once

#include "random.h"

#include <string>

namespace generate {

using File = std::vector<uint8_t>;

struct Hall {
    File map;                            // the map file
    std::vector<std::vector<int>> next;  // the neighbours of each place

    int places() const { return static_cast<int>(next.size()); }
};

struct Trip {
    int start, target;
};

enum class Kind { list, chains, open, blocks, rooms, aisles, corridors };

constexpr int kinds = 7;

Kind kind_named(const std::string &name);

// A random floor of the kind, up to the width and height; a list has width x height places.
Hall make_hall(Random &random, Kind kind, int width, int height);

// Up to so many trips with different starts and different targets, within one connected part.
std::vector<Trip> make_trips(Random &random, const Hall &hall, int carts);

// Appends a number in two bytes.
void put_two(File &file, int number);

}  // namespace generate
