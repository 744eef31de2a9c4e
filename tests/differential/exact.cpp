#include "exact.h"

#include <queue>

namespace differential {
namespace {

using generate::Hall;
using generate::Trip;

constexpr size_t most_states = 20000;

// Where each cart is, and which have arrived for good. A step costs one for each cart that has not.
struct State {
    std::vector<int> places;
    std::vector<bool> arrived;
};

class Joint {
public:
    Joint(const Hall &hall, const std::vector<Trip> &trips) : hall(hall), trips(trips) {
        size_t states = 1;
        for (size_t cart = 0; cart < trips.size(); ++cart) states *= 2 * hall.next.size();
        seen.assign(states, false);
    }

    std::optional<int> run() {
        State start;
        for (const Trip &trip : trips) start.places.push_back(trip.start);
        start.arrived.assign(trips.size(), false);
        arrive(start, 0, 0);
        while (!queue.empty()) {
            const auto [cost, number] = queue.top();
            queue.pop();
            if (seen[number]) continue;
            seen[number] = true;
            const State state = state_of(number);
            int moving = 0;
            for (bool arrived : state.arrived) moving += arrived ? 0 : 1;
            if (moving == 0) return cost;
            State next = state;
            step(state, next, 0, cost + moving);
        }
        return std::nullopt;
    }

private:
    size_t number_of(const State &state) const {
        size_t number = 0;
        for (size_t cart = 0; cart < trips.size(); ++cart)
            number = (number * hall.next.size() + static_cast<size_t>(state.places[cart])) * 2 + (state.arrived[cart] ? 1 : 0);
        return number;
    }

    State state_of(size_t number) const {
        State state{std::vector<int>(trips.size()), std::vector<bool>(trips.size())};
        for (size_t cart = trips.size(); cart-- > 0;) {
            state.arrived[cart] = number % 2 == 1;
            number /= 2;
            state.places[cart] = static_cast<int>(number % hall.next.size());
            number /= hall.next.size();
        }
        return state;
    }

    // Queues the state, with every choice of the carts from this one on that stay at their targets.
    void arrive(State state, size_t cart, int cost) {
        if (cart == trips.size()) {
            const size_t number = number_of(state);
            if (!seen[number]) queue.push({cost, number});
            return;
        }
        arrive(state, cart + 1, cost);
        if (state.arrived[cart] || state.places[cart] != trips[cart].target) return;
        state.arrived[cart] = true;
        arrive(state, cart + 1, cost);
    }

    bool conflicts(const State &from, const State &to, size_t cart) const {
        for (size_t other = 0; other < cart; ++other) {
            if (to.places[cart] == to.places[other]) return true;
            if (to.places[cart] == from.places[other] && from.places[cart] == to.places[other]) return true;
        }
        return false;
    }

    // Chooses the steps of the carts from this one on.
    void step(const State &from, State &to, size_t cart, int cost) {
        if (cart == trips.size()) {
            arrive(to, 0, cost);
            return;
        }
        std::vector<int> choices{from.places[cart]};
        if (!from.arrived[cart])
            for (int q : hall.next[static_cast<size_t>(from.places[cart])]) choices.push_back(q);
        for (int q : choices) {
            to.places[cart] = q;
            if (!conflicts(from, to, cart)) step(from, to, cart + 1, cost);
        }
    }

    using Queued = std::pair<int, size_t>;

    const Hall &hall;
    const std::vector<Trip> &trips;
    std::vector<bool> seen;
    std::priority_queue<Queued, std::vector<Queued>, std::greater<Queued>> queue;
};

}  // namespace

bool is_small(const Hall &hall, const std::vector<Trip> &trips) {
    size_t states = 1;
    for (size_t cart = 0; cart < trips.size() && states <= most_states; ++cart) states *= 2 * hall.next.size();
    return states <= most_states;
}

std::optional<int> least_sum(const Hall &hall, const std::vector<Trip> &trips) {
    return Joint(hall, trips).run();
}

}  // namespace differential
