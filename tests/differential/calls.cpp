#include "calls.h"

#include "../generate/path.h"
#include "builder.h"

#include <algorithm>

namespace differential {
namespace {

using generate::Hall;
using generate::Trip;

class Caller {
public:
    Caller(Random &random, const Hall &hall, const std::vector<Trip> &trips, int claim)
        : random(random), hall(hall), trips(trips), carts(static_cast<int>(trips.size())), plan(claim, carts) {
        for (const Trip &trip : trips) plan.trip(trip.start, trip.target);
    }

    File run() {
        const int first_splits = random.percent(2) ? random.between(60, 66) : 0;
        for (int split = 0; split < first_splits; ++split) target();
        const int calls = random.between(1, random.percent(5) ? 150 : 16);
        for (int call = 0; call < calls; ++call) {
            const int choice = random.between(1, 100);
            if (choice <= 30) plan.close();
            else if (choice <= 45) target();
            else if (choice <= 60) vertex();
            else if (choice <= 70) edge();
            else if (choice <= 90) corridor();
            else show();
        }
        return plan.settle().file;
    }

private:
    int cart() { return random.percent(1) ? carts : random.between(0, carts - 1); }
    int other_than(int a) { return random.percent(1) ? a : (a + random.between(1, std::max(1, carts - 1))) % carts; }
    int tick() { return random.percent(2) ? random.between(3995, 4001) : random.between(0, 14); }

    // A place by chance, or one where a trip starts or ends, since bans on these matter most.
    int place() {
        const Trip &trip = random.one_of(trips);
        const int choice = random.between(1, 100);
        if (choice <= 25) return trip.target;
        if (choice <= 35) return trip.start;
        if (choice <= 36) return hall.places();
        return random.between(0, hall.places() - 1);
    }

    // A neighbour of the place, if it has any.
    int beside(int place) {
        if (place >= hall.places() || random.percent(1)) return place;
        const std::vector<int> &around = hall.next[static_cast<size_t>(place)];
        return around.empty() ? place : random.one_of(around);
    }

    // The operands are chosen one by one, since a compiler may work out arguments in any order.
    void target() {
        const int a = cart(), t = tick();
        plan.target(a, t);
    }

    void vertex() {
        const int a = cart(), b = other_than(a), p = place(), t = tick();
        plan.vertex(a, b, p, t);
    }

    void edge() {
        const int a = cart(), b = other_than(a), p = place(), q = beside(p), t = tick();
        plan.edge(a, b, p, q, t);
    }

    // How far a corridor goes from p by q, at most.
    int length(int p, int q) const {
        int steps = 1;
        while (steps < 70 && q < hall.places() && hall.next[static_cast<size_t>(q)].size() == 2) {
            const std::vector<int> &around = hall.next[static_cast<size_t>(q)];
            const int next = around[0] == p ? around[1] : around[0];
            p = q;
            q = next;
            ++steps;
        }
        return steps;
    }

    void corridor() {
        const int a = cart(), b = other_than(a), p = place(), q = beside(p), whole = length(p, q);
        const int k = random.percent(90) ? random.between(1, whole) : random.between(0, whole + 1);
        const int most = random.percent(50) ? 3 : 14;
        const bool early = random.percent(30);
        const int m = early ? 0 : random.between(0, most), n = random.between(0, most);
        plan.corridor(a, b, p, q, k, m, n);
    }

    // A walk by chance that may come to the target.
    void show() {
        const int c = cart();
        if (c == carts) {
            plan.route(c, {0});
            return;
        }
        const Trip &trip = trips[static_cast<size_t>(c)];
        std::vector<int> places{trip.start};
        while (places.back() != trip.target && places.size() < 200) {
            const int from = places.back();
            const std::vector<int> &around = hall.next[static_cast<size_t>(from)];
            const bool near = std::find(around.begin(), around.end(), trip.target) != around.end();
            places.push_back(near ? trip.target : random.percent(10) ? from : beside(from));
        }
        plan.route(c, places);
    }

    Random &random;
    const Hall &hall;
    const std::vector<Trip> &trips;
    const int carts;
    Plan plan;
};

// A claim near the sum of the carts' shortest routes, or any that is small.
int likely_claim(Random &random, const Hall &hall, const std::vector<Trip> &trips) {
    if (random.percent(30)) return random.between(0, 12 * static_cast<int>(trips.size()));
    int sum = random.between(-1, 3);
    for (const Trip &trip : trips) {
        generate::Route route;
        generate::find_route(hall, trip, {}, {}, route);
        sum += static_cast<int>(route.size()) - 1;
    }
    return std::max(sum, 0);
}

}  // namespace

Case random_calls(Random &random) {
    static const std::vector<generate::Kind> chosen{generate::Kind::chains, generate::Kind::chains,
                                                    generate::Kind::list, generate::Kind::corridors,
                                                    generate::Kind::blocks, generate::Kind::open};
    const generate::Kind kind = random.one_of(chosen);
    const int width = random.between(1, 6), height = random.between(1, 4);
    const Hall hall = generate::make_hall(random, kind, width, height);
    const std::vector<Trip> trips = generate::make_trips(random, hall, random.between(2, 4));
    const int claim = likely_claim(random, hall, trips);
    return {hall, trips, claim, Caller(random, hall, trips, claim).run()};
}

Joins random_joins(Random &random) {
    const int places = random.between(1, 40);
    const int ends = random.percent(50) ? places : std::min(places, 12);  // connections are among so many
    ListMap map(places);
    const int joins = random.between(0, 60);
    for (int i = 0; i < joins; ++i) {
        const int p = random.percent(40) ? 0 : random.between(0, ends - 1);
        const int steps = random.percent(2) ? 0 : 1 + i % ends;
        map.join(p, random.percent(1) ? places : (p + steps) % ends);
    }
    return {map.file, Plan(0, 1).trip(0, 0).route(0, {0}).close().settle().file};
}

}  // namespace differential
