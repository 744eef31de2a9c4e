// A small generator of random numbers (xorshift64*), so that a seed gives the same run everywhere.
#pragma once

#include <cstddef>
#include <cstdint>
#include <utility>
#include <vector>

class Random {
public:
    explicit Random(uint64_t seed) : state(seed * 0x9e3779b97f4a7c15u + 0x2545f4914f6cdd1du) {
        if (state == 0) state = 1;
        for (int i = 0; i < 8; ++i) next();
    }

    uint64_t next() {
        state ^= state >> 12;
        state ^= state << 25;
        state ^= state >> 27;
        return state * 0x2545f4914f6cdd1du;
    }

    // A number below n, which is at least 1.
    size_t below(size_t n) { return static_cast<size_t>((next() >> 16) % n); }

    // A number from low to high, both included.
    int between(int low, int high) { return low + static_cast<int>(below(static_cast<size_t>(high - low + 1))); }

    // True in so many cases of a hundred.
    bool percent(int cases) { return between(1, 100) <= cases; }

    template <class T>
    const T &one_of(const std::vector<T> &choices) { return choices[below(choices.size())]; }

    template <class T>
    void shuffle(std::vector<T> &items) {
        for (size_t i = items.size(); i > 1; --i) std::swap(items[i - 1], items[below(i)]);
    }

private:
    uint64_t state;
};
