#include "hall.h"

#include "picture.h"

namespace tell {
namespace {

using second::Floor;
using second::Place;

constexpr size_t most_places_told = 64;

// Being neighbours goes both ways, so each connection is listed at both its ends.
size_t connections(const Floor &floor) {
    size_t listed = 0;
    for (const second::Neighbours &around : floor.neighbours) listed += around.count;
    return listed / 2;
}

void tell_neighbours(std::ostream &out, const Floor &floor, Place place) {
    out << "  place " << place << ":";
    for (Place next : floor.neighbours[place]) out << " " << next;
    out << "\n";
}

void tell_places(std::ostream &out, const Floor &floor) {
    if (floor.neighbours.size() > most_places_told) return;
    for (Place place = 0; floor.has(place); ++place) tell_neighbours(out, floor, place);
}

}  // namespace

void tell_hall(std::ostream &out, const Floor &floor, second::Bytes map, const std::vector<second::Trip> &trips) {
    out << "floor.map: " << floor.neighbours.size() << " places, " << connections(floor) << " connections\n";
    if (map[0] == 'P') tell_places(out, floor);
    else tell_picture(out, map, trips);
}

}  // namespace tell
