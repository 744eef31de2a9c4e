// A row: the places where a cart can stand at one tick.
#pragma once

#include "floor.h"

#include <array>
#include <cstdint>

namespace second {

class Row {
public:
    bool has(Place p) const { return words[p / 64] >> (p % 64) & 1; }
    void add(Place p) { words[p / 64] |= uint64_t{1} << (p % 64); }
    void remove(Place p) { words[p / 64] &= ~(uint64_t{1} << (p % 64)); }

    bool empty() const {
        for (uint64_t word : words)
            if (word != 0) return false;
        return true;
    }

    template <class Visit>
    void for_each(Visit visit) const {
        for (size_t i = 0; i < words.size(); ++i)
            for (uint64_t word = words[i]; word != 0; word &= word - 1)
                visit(static_cast<Place>(64 * i + static_cast<size_t>(__builtin_ctzll(word))));
    }

private:
    std::array<uint64_t, most_places / 64> words{};
};

}  // namespace second
