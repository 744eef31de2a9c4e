#include "cells.h"

namespace generate {
namespace {

// Each cell is blocked with the same chance.
Cells blocks(Random &random, int width, int height) {
    Cells cells(height, width, true);
    const int chance = random.between(5, 35);
    for (int row = 0; row < height; ++row)
        for (int column = 0; column < width; ++column)
            if (random.percent(chance)) cells.set(row, column, false);
    return cells;
}

// Walls in both directions, with a door between every two rooms side by side.
Cells rooms(Random &random, int width, int height) {
    Cells cells(height, width, true);
    const int size = random.between(2, 6) + 1;
    for (int row = 0; row < height; ++row)
        for (int column = 0; column < width; ++column)
            if (row % size == size - 1 || column % size == size - 1) cells.set(row, column, false);
    for (int row = 0; row < height; row += size) {
        for (int column = 0; column < width; column += size) {
            if (random.percent(90)) cells.set(row + random.between(0, size - 2), column + size - 1, true);
            if (random.percent(90)) cells.set(row + size - 1, column + random.between(0, size - 2), true);
        }
    }
    return cells;
}

// Shelves, one or two cells deep, with aisles one cell wide between them.
Cells aisles(Random &random, int width, int height) {
    Cells cells(height, width, true);
    const int length = random.between(2, 8), depth = random.between(1, 2);
    for (int row = 1; row + 1 < height; ++row)
        for (int column = 1; column + 1 < width; ++column)
            if ((row - 1) % (depth + 1) < depth && (column - 1) % (length + 1) < length)
                cells.set(row, column, false);
    return cells;
}

// Corridors one cell wide between the cells of even row and column: a random tree of them,
// which grows from the first cell, and some more.
Cells corridors(Random &random, int width, int height) {
    Cells cells(height, width, false);
    cells.set(0, 0, true);
    std::vector<std::pair<int, int>> ends{{0, 0}};
    const int sides[4][2] = {{-1, 0}, {0, -1}, {0, 1}, {1, 0}};
    const int loops = random.between(0, 20);
    while (!ends.empty()) {
        const size_t chosen = random.percent(80) ? ends.size() - 1 : random.below(ends.size());
        const auto [row, column] = ends[chosen];
        bool grown = false;
        const size_t first = random.below(4);
        for (size_t i = 0; i < 4 && !grown; ++i) {
            const int *side = sides[(first + i) % 4];
            const int to_row = row + 2 * side[0], to_column = column + 2 * side[1];
            const bool inside = to_row >= 0 && to_row < height && to_column >= 0 && to_column < width;
            grown = inside && !cells.free(to_row, to_column);
            if (!grown && !(inside && random.percent(loops))) continue;
            cells.set(row + side[0], column + side[1], true);
            cells.set(to_row, to_column, true);
            if (grown) ends.push_back({to_row, to_column});
        }
        if (!grown) ends.erase(ends.begin() + static_cast<std::ptrdiff_t>(chosen));
    }
    return cells;
}

}  // namespace

Cells make_cells(Random &random, Kind kind, int width, int height) {
    switch (kind) {
    case Kind::blocks:
        return blocks(random, width, height);
    case Kind::rooms:
        return rooms(random, width, height);
    case Kind::aisles:
        return aisles(random, width, height);
    case Kind::corridors:
        return corridors(random, width, height);
    default:
        return Cells(height, width, true);
    }
}

}  // namespace generate
