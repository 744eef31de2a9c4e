#include "hall.h"

#include "cells.h"

#include <algorithm>
#include <cstdio>
#include <cstdlib>

namespace generate {
namespace {

constexpr size_t most_neighbours = 8;
constexpr size_t most_connections = 4096;

bool can_join(const Hall &hall, int p, int q) {
    const std::vector<int> &around = hall.next[static_cast<size_t>(p)];
    if (p == q || around.size() == most_neighbours) return false;
    if (hall.next[static_cast<size_t>(q)].size() == most_neighbours) return false;
    return std::find(around.begin(), around.end(), q) == around.end();
}

// A list map under construction.
struct ListHall {
    Hall hall;
    size_t connections = 0;

    explicit ListHall(int places) {
        hall.map.push_back('P');
        put_two(hall.map, places);
        hall.next.resize(static_cast<size_t>(places));
    }

    void join(int p, int q) {
        if (connections == most_connections || !can_join(hall, p, q)) return;
        hall.map.push_back('W');
        put_two(hall.map, p);
        put_two(hall.map, q);
        hall.next[static_cast<size_t>(p)].push_back(q);
        hall.next[static_cast<size_t>(q)].push_back(p);
        ++connections;
    }
};

std::vector<int> shuffled_places(Random &random, int places) {
    std::vector<int> order;
    for (int p = 0; p < places; ++p) order.push_back(p);
    random.shuffle(order);
    return order;
}

// A random tree with some more connections.
Hall list_hall(Random &random, int places) {
    ListHall made(places);
    const std::vector<int> order = shuffled_places(random, places);
    for (size_t i = 1; i < order.size(); ++i) {
        const size_t back = std::min(i, size_t{1} + random.below(random.percent(50) ? 3 : 12));
        made.join(order[i], order[i - back]);
    }
    const int more = random.between(0, places);
    for (int i = 0; i < more; ++i) {
        const int p = random.between(0, places - 1);
        made.join(p, random.between(0, places - 1));
    }
    return made.hall;
}

// A few junctions, joined by chains of places with two neighbours each.
Hall chains_hall(Random &random, int places) {
    ListHall made(places);
    const std::vector<int> order = shuffled_places(random, places);
    const int junctions = std::min(places, random.between(2, 6));
    for (int i = 1; i < junctions && random.percent(60); ++i)
        made.join(order[static_cast<size_t>(i)], order[random.below(static_cast<size_t>(i))]);
    int next = junctions;
    while (next < places) {
        const int length = std::min(places - next, random.between(1, random.percent(10) ? 64 : 6));
        int last = order[random.below(static_cast<size_t>(junctions))];
        for (int i = 0; i < length; ++i) {
            made.join(last, order[static_cast<size_t>(next)]);
            last = order[static_cast<size_t>(next++)];
        }
        if (random.percent(85)) made.join(last, order[random.below(static_cast<size_t>(junctions))]);
    }
    return made.hall;
}

void put_text(File &file, const std::string &text) { file.insert(file.end(), text.begin(), text.end()); }

Hall grid_hall(Random &random, const Cells &cells) {
    Hall hall;
    put_text(hall.map, "type octile\nheight " + std::to_string(cells.height) + "\nwidth " +
                           std::to_string(cells.width) + "\nmap\n");
    hall.next.resize(static_cast<size_t>(cells.width * cells.height));
    for (int row = 0; row < cells.height; ++row) {
        for (int column = 0; column < cells.width; ++column) {
            const bool free = cells.free(row, column);
            hall.map.push_back(static_cast<uint8_t>(free ? ".G"[random.percent(5)] : "@OTSW"[random.below(5)]));
            std::vector<int> &around = hall.next[static_cast<size_t>(row * cells.width + column)];
            const int sides[4][2] = {{-1, 0}, {0, -1}, {0, 1}, {1, 0}};
            for (const auto &side : sides)
                if (free && cells.free(row + side[0], column + side[1]))
                    around.push_back((row + side[0]) * cells.width + column + side[1]);
        }
        hall.map.push_back('\n');
    }
    return hall;
}

// The places that can be reached from the place.
std::vector<int> part_of(const Hall &hall, int place) {
    std::vector<bool> seen(hall.next.size());
    std::vector<int> part{place};
    seen[static_cast<size_t>(place)] = true;
    for (size_t i = 0; i < part.size(); ++i) {
        for (int q : hall.next[static_cast<size_t>(part[i])]) {
            if (seen[static_cast<size_t>(q)]) continue;
            seen[static_cast<size_t>(q)] = true;
            part.push_back(q);
        }
    }
    return part;
}

}  // namespace

void put_two(File &file, int number) {
    file.push_back(static_cast<uint8_t>(number >> 8 & 0xff));
    file.push_back(static_cast<uint8_t>(number & 0xff));
}

Kind kind_named(const std::string &name) {
    const char *names[kinds] = {"list", "chains", "open", "blocks", "rooms", "aisles", "corridors"};
    for (int kind = 0; kind < kinds; ++kind)
        if (name == names[kind]) return static_cast<Kind>(kind);
    std::fprintf(stderr, "no kind of floor: %s\n", name.c_str());
    std::exit(2);
}

Hall make_hall(Random &random, Kind kind, int width, int height) {
    if (kind == Kind::list) return list_hall(random, std::min(1024, width * height));
    if (kind == Kind::chains) return chains_hall(random, std::min(1024, width * height));
    return grid_hall(random, make_cells(random, kind, width, height));
}

std::vector<Trip> make_trips(Random &random, const Hall &hall, int carts) {
    std::vector<int> part;
    for (int attempt = 0; attempt < 10; ++attempt) {
        std::vector<int> other = part_of(hall, random.between(0, hall.places() - 1));
        if (other.size() > part.size()) part = std::move(other);
    }
    std::vector<int> starts = part, targets = part;
    random.shuffle(starts);
    random.shuffle(targets);
    std::vector<Trip> trips;
    for (size_t i = 0; i < part.size() && i < static_cast<size_t>(carts); ++i)
        trips.push_back({starts[i], targets[i]});
    return trips;
}

}  // namespace generate
