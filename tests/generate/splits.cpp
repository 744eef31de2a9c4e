#include "splits.h"

#include <algorithm>

namespace generate {
namespace {

std::optional<Conflict> first_conflict(const std::vector<Route> &routes, int a, int b) {
    const Route &one = routes[static_cast<size_t>(a)];
    const Route &other = routes[static_cast<size_t>(b)];
    if (one.empty() || other.empty()) return std::nullopt;
    const int ticks = static_cast<int>(std::max(one.size(), other.size()));
    for (int tick = 0; tick < ticks; ++tick) {
        const int p = place_at(one, tick);
        if (p == place_at(other, tick)) return Conflict{a, b, p, p, tick};
        if (tick == 0) continue;
        const int before = place_at(one, tick - 1);
        if (p == place_at(other, tick - 1) && before == place_at(other, tick))
            return Conflict{a, b, before, p, tick};
    }
    return std::nullopt;
}

void put_carts(File &file, int a, int b) {
    file.push_back(static_cast<uint8_t>(a));
    file.push_back(static_cast<uint8_t>(b));
}

}  // namespace

std::vector<Conflict> find_conflicts(const std::vector<Route> &routes) {
    std::vector<Conflict> conflicts;
    for (int a = 0; a < static_cast<int>(routes.size()); ++a)
        for (int b = a + 1; b < static_cast<int>(routes.size()); ++b)
            if (const auto conflict = first_conflict(routes, a, b)) conflicts.push_back(*conflict);
    return conflicts;
}

Split plain_split(const Conflict &conflict) {
    const auto [a, b, p, q, tick] = conflict;
    Split split;
    split.command.push_back(p == q ? 'V' : 'E');
    put_carts(split.command, a, b);
    put_two(split.command, p);
    if (p != q) put_two(split.command, q);
    put_two(split.command, tick);
    const BanKind kind = p == q ? BanKind::stand : BanKind::move;
    split.left = {kind, a, p, q, tick, tick};
    split.right = {kind, b, q, p, tick, tick};
    return split;
}

std::optional<Split> target_split(const Conflict &conflict, const std::vector<Route> &routes) {
    if (conflict.p != conflict.q) return std::nullopt;
    for (int cart : {conflict.a, conflict.b}) {
        const int length = static_cast<int>(routes[static_cast<size_t>(cart)].size()) - 1;
        if (conflict.tick < length) continue;
        Split split;
        split.command = {'T', static_cast<uint8_t>(cart)};
        put_two(split.command, conflict.tick);
        split.left = {BanKind::late, cart, 0, 0, conflict.tick, conflict.tick};
        split.right = {BanKind::by, cart, 0, 0, conflict.tick, conflict.tick};
        return split;
    }
    return std::nullopt;
}

}  // namespace generate
