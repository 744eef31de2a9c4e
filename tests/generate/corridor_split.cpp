#include "splits.h"

#include <algorithm>

namespace generate {
namespace {

constexpr size_t longest = 63;
constexpr int most_ticks = 4000;

bool is_inner(const Problem &problem, const Conflict &conflict, int place) {
    if (problem.hall.next[static_cast<size_t>(place)].size() != 2) return false;
    return problem.trips[static_cast<size_t>(conflict.a)].start != place &&
           problem.trips[static_cast<size_t>(conflict.b)].start != place;
}

// Makes the corridor longer at its end, as far as the places are inner ones.
void grow(const Problem &problem, const Conflict &conflict, std::vector<int> &corridor) {
    while (corridor.size() <= longest && is_inner(problem, conflict, corridor.back())) {
        const std::vector<int> &around = problem.hall.next[static_cast<size_t>(corridor.back())];
        const int next = around[0] == corridor[corridor.size() - 2] ? around[1] : around[0];
        if (std::find(corridor.begin(), corridor.end(), next) != corridor.end()) return;
        corridor.push_back(next);
    }
}

// The corridor in which the two carts meet; of one place if there is none.
std::vector<int> corridor_around(const Problem &problem, const Conflict &conflict) {
    std::vector<int> corridor{conflict.p, conflict.q};
    if (conflict.p == conflict.q) {
        if (!is_inner(problem, conflict, conflict.p)) return {conflict.p};
        corridor.back() = problem.hall.next[static_cast<size_t>(conflict.p)][0];
    }
    grow(problem, conflict, corridor);
    std::reverse(corridor.begin(), corridor.end());
    grow(problem, conflict, corridor);
    return corridor;
}

// The last tick up to which the cart comes to the end only by the corridor's last step.
int last_through(const Problem &problem, const Asked &asked, int start, int before_end, int end, int limit) {
    Asked without = asked;
    without.bans.push_back({BanKind::move, 0, before_end, end, 0, for_ever});
    const auto around = first_visit(problem.hall, start, without, end, limit);
    return around ? *around - 1 : limit;
}

bool visits(const Route &route, int place, int last) {
    for (int tick = 0; tick <= last && tick < static_cast<int>(route.size()); ++tick)
        if (route[static_cast<size_t>(tick)] == place) return true;
    return false;
}

// K with cart a going from the corridor's first place to its last.
std::optional<Split> split_along(const Problem &problem, int a, int b, const std::vector<int> &corridor,
                                 const std::vector<Route> &routes, const std::vector<Ban> &bans) {
    const size_t k = corridor.size() - 1;
    const int c0 = corridor[0], ck = corridor[k], steps = static_cast<int>(k);
    const Asked asked_a = asked_of(a, problem.trips, bans), asked_b = asked_of(b, problem.trips, bans);
    const int start_a = problem.trips[static_cast<size_t>(a)].start;
    const int start_b = problem.trips[static_cast<size_t>(b)].start;
    const auto first_a = first_visit(problem.hall, start_a, asked_a, ck, most_steps);
    const auto first_b = first_visit(problem.hall, start_b, asked_b, c0, most_steps);
    if (!first_a || !first_b) return std::nullopt;
    const int m = last_through(problem, asked_a, start_a, corridor[k - 1], ck, *first_b + steps);
    const int n = last_through(problem, asked_b, start_b, corridor[1], c0, *first_a + steps);
    if (m < 0 || n < 0 || m > most_ticks || n > most_ticks) return std::nullopt;
    if (!visits(routes[static_cast<size_t>(a)], ck, m) || !visits(routes[static_cast<size_t>(b)], c0, n))
        return std::nullopt;
    Split split;
    split.command = {'K', static_cast<uint8_t>(a), static_cast<uint8_t>(b)};
    put_two(split.command, c0);
    put_two(split.command, corridor[1]);
    split.command.push_back(static_cast<uint8_t>(k));
    put_two(split.command, m);
    put_two(split.command, n);
    split.left = {BanKind::stand, a, ck, ck, 0, m};
    split.right = {BanKind::stand, b, c0, c0, 0, n};
    return split;
}

}  // namespace

std::optional<Split> corridor_split(const Problem &problem, const Conflict &conflict,
                                    const std::vector<Route> &routes, const std::vector<Ban> &bans) {
    std::vector<int> corridor = corridor_around(problem, conflict);
    if (corridor.size() < 2 || corridor.size() > longest + 1) return std::nullopt;
    for (int turn = 0; turn < 2; ++turn) {
        if (auto split = split_along(problem, conflict.a, conflict.b, corridor, routes, bans)) return split;
        std::reverse(corridor.begin(), corridor.end());
    }
    return std::nullopt;
}

}  // namespace generate
