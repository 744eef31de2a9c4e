#include "picture.h"

#include <string>

namespace tell {
namespace {

using second::Trip;

// The rows of the file, each with its line end, as text.
std::string rows_of(second::Bytes map) {
    const std::string file(map.data, map.data + map.length);
    const std::string end_of_heading = "\nmap\n";
    return file.substr(file.find(end_of_heading) + end_of_heading.size());
}

bool is_free(char sign) { return sign == '.' || sign == 'G'; }

// The picture's own signs of the cells, without line ends, by place.
std::string cells_of(const std::string &rows) {
    std::string cells;
    for (char sign : rows)
        if (sign != '\n') cells += is_free(sign) ? '.' : '@';
    return cells;
}

// Draws a sign if its place is on the floor.
void draw(std::string &cells, second::Place place, int sign) {
    if (place < cells.size()) cells[place] = static_cast<char>(sign);
}

// The highest cart first, so that the lowest one is on top.
void draw_targets(std::string &cells, const std::vector<Trip> &trips) {
    for (size_t cart = trips.size(); cart-- > 0;) draw(cells, trips[cart].target, 'A' + static_cast<int>(cart));
}

void draw_starts(std::string &cells, const std::vector<Trip> &trips) {
    for (size_t cart = trips.size(); cart-- > 0;) draw(cells, trips[cart].start, 'a' + static_cast<int>(cart));
}

}  // namespace

void tell_picture(std::ostream &out, second::Bytes map, const std::vector<Trip> &trips) {
    const std::string rows = rows_of(map);
    const size_t width = rows.find('\n');
    std::string cells = cells_of(rows);
    draw_targets(cells, trips);
    draw_starts(cells, trips);
    out << "  . free, @ blocked, a to p the starts of carts 0 to 15, A to P their targets; a start hides a target\n";
    for (size_t place = 0; place < cells.size(); place += width) out << "  " << cells.substr(place, width) << "\n";
}

}  // namespace tell
