// Writes map and plan files by their commands, right or wrong.
#pragma once

#include "../generate/hall.h"

#include <initializer_list>
#include <string>

namespace differential {

using generate::File;
using generate::put_two;

// A list map of so many places.
class ListMap {
public:
    explicit ListMap(int places) : file{'P'} { put_two(file, places); }

    ListMap &join(int p, int q) {
        file.push_back('W');
        put_two(file, p);
        put_two(file, q);
        return *this;
    }

    // Joins every place from the first up to the last with the next one.
    ListMap &line(int first, int last) {
        for (int p = first; p < last; ++p) join(p, p + 1);
        return *this;
    }

    File file;
};

inline File text(const std::string &bytes) { return File(bytes.begin(), bytes.end()); }

// A grid map of the heading's numbers, as text, and the rows.
inline File grid(const std::string &height, const std::string &width, const std::string &rows) {
    return text("type octile\nheight " + height + "\nwidth " + width + "\nmap\n" + rows);
}

class Plan {
public:
    Plan(int claim, int carts) : file{'O'} { two(claim).one(carts); }

    Plan &one(int number) {
        file.push_back(static_cast<uint8_t>(number));
        return *this;
    }
    Plan &two(int number) {
        put_two(file, number);
        return *this;
    }

    Plan &trip(int start, int target) { return one('C').two(start).two(target); }

    Plan &route(int cart, const std::vector<int> &places) {
        one('R').one(cart).one(static_cast<int>(places.size()) - 1);
        for (int place : places) two(place);
        return *this;
    }

    Plan &vertex(int a, int b, int p, int t) { return one('V').one(a).one(b).two(p).two(t); }
    Plan &edge(int a, int b, int p, int q, int t) { return one('E').one(a).one(b).two(p).two(q).two(t); }
    Plan &target(int a, int t) { return one('T').one(a).two(t); }
    Plan &corridor(int a, int b, int p, int q, int k, int m, int n) {
        return one('K').one(a).one(b).two(p).two(q).one(k).two(m).two(n);
    }

    Plan &close(int times = 1) {
        file.insert(file.end(), static_cast<size_t>(times), 'X');
        return *this;
    }
    Plan &settle() { return one('Z'); }

    File file;
};

}  // namespace differential
