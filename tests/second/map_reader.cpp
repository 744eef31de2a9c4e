#include "map_reader.h"

#include "refusals.h"

namespace second {
namespace {

constexpr size_t most_connections = 4096;
constexpr unsigned widest = 32;
constexpr size_t most_digits = 3;

[[noreturn]] void refuse(Number number, size_t offset) {
    throw Fault{Layer::map, number, offset};
}

// ---- The list layout ----

Floor read_count(Bytes file) {
    if (file.length < 3) refuse(cut_short, file.length);
    const unsigned places = file.two(1);
    if (places < 1 || places > most_places) refuse(count, 0);
    Floor floor;
    floor.neighbours.resize(places);
    return floor;
}

// What a connection that is whole is refused with, when so many were added before.
Number judge_connection(const Floor &floor, size_t connections, Place p, Place q) {
    if (connections == most_connections) return count;
    if (!floor.has(p) || !floor.has(q)) return no_place;
    if (p == q || floor.joined(p, q)) return twice;
    if (floor.neighbours[p].count == most_neighbours) return crowded;
    if (floor.neighbours[q].count == most_neighbours) return crowded;
    return taken;
}

Floor read_list(Bytes file) {
    Floor floor = read_count(file);
    size_t connections = 0;
    for (size_t at = 3; at < file.length; at += 5) {
        if (file[at] != 'W') refuse(bad_letter, at);
        if (file.left(at) < 5) refuse(cut_short, file.length);
        const Place p = file.two(at + 1);
        const Place q = file.two(at + 3);
        const Number number = judge_connection(floor, connections, p, q);
        if (number != taken) refuse(number, at);
        floor.list(p, q);
        floor.list(q, p);
        ++connections;
    }
    return floor;
}

// ---- The grid layout ----

// Passes the text of a heading line, which is due at the offset.
void pass_text(Bytes file, size_t &at, const char *text) {
    for (const char *sign = text; *sign != 0; ++sign) {
        if (at == file.length || file[at] != static_cast<uint8_t>(*sign)) refuse(headless, at);
        ++at;
    }
}

bool is_digit(uint8_t byte) { return byte >= '0' && byte <= '9'; }

// Reads a line of a word, a number of one to three digits and the line end, and judges the number.
unsigned read_gauge(Bytes file, size_t &at, const char *word) {
    pass_text(file, at, word);
    const size_t first_digit = at;
    unsigned number = 0;
    while (at < file.length && at < first_digit + most_digits && is_digit(file[at])) {
        number = 10 * number + (file[at] - '0');
        ++at;
    }
    if (at == first_digit) refuse(headless, at);
    pass_text(file, at, "\n");
    if (number < 1 || number > widest) refuse(gauge, first_digit);
    return number;
}

// Whether the cell of the sign that is due at the offset is free.
bool read_sign(Bytes file, size_t at) {
    if (at == file.length) refuse(ragged, at);
    switch (file[at]) {
    case '.':
    case 'G':
        return true;
    case '@':
    case 'O':
    case 'T':
    case 'S':
    case 'W':
        return false;
    case '\n':
        refuse(ragged, at);
    default:
        refuse(strange_sign, at);
    }
}

// Reads the cells row by row, up to the file's end.
std::vector<bool> read_rows(Bytes file, size_t at, unsigned height, unsigned width) {
    std::vector<bool> free;
    for (unsigned row = 0; row < height; ++row) {
        for (unsigned column = 0; column < width; ++column) free.push_back(read_sign(file, at++));
        if (at == file.length || file[at] != '\n') refuse(ragged, at);
        ++at;
    }
    if (at != file.length) refuse(ragged, at);
    return free;
}

// The floor of the cells: above, left, right, below.
Floor grid_floor(const std::vector<bool> &free, unsigned height, unsigned width) {
    Floor floor;
    floor.neighbours.resize(free.size());
    for (unsigned row = 0; row < height; ++row) {
        for (unsigned column = 0; column < width; ++column) {
            const Place p = row * width + column;
            if (!free[p]) continue;
            if (row > 0 && free[p - width]) floor.list(p, p - width);
            if (column > 0 && free[p - 1]) floor.list(p, p - 1);
            if (column + 1 < width && free[p + 1]) floor.list(p, p + 1);
            if (row + 1 < height && free[p + width]) floor.list(p, p + width);
        }
    }
    return floor;
}

Floor read_grid(Bytes file) {
    size_t at = 0;
    pass_text(file, at, "type octile\n");
    const unsigned height = read_gauge(file, at, "height ");
    const unsigned width = read_gauge(file, at, "width ");
    pass_text(file, at, "map\n");
    return grid_floor(read_rows(file, at, height, width), height, width);
}

}  // namespace

Floor read_map(Bytes file) {
    if (file.length > 0 && file[0] == 'P') return read_list(file);
    return read_grid(file);
}

}  // namespace second
