// The cells of a random grid.
#pragma once

#include "hall.h"

namespace generate {

struct Cells {
    int height, width;
    std::vector<bool> is_free;  // row by row

    Cells(int height, int width, bool free)
        : height(height), width(width), is_free(static_cast<size_t>(height * width), free) {}

    bool free(int row, int column) const {
        if (row < 0 || row >= height || column < 0 || column >= width) return false;
        return is_free[static_cast<size_t>(row * width + column)];
    }

    void set(int row, int column, bool free) {
        if (row >= 0 && row < height && column >= 0 && column < width)
            is_free[static_cast<size_t>(row * width + column)] = free;
    }
};

// The kind is one of the grids.
Cells make_cells(Random &random, Kind kind, int width, int height);

}  // namespace generate
