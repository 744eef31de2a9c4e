#include "path.h"

#include <algorithm>

namespace generate {

bool Asked::may_stand(int place, int tick) const {
    for (const Ban &ban : bans)
        if (ban.kind == BanKind::stand && ban.from == place && ban.first <= tick && tick <= ban.last)
            return false;
    return true;
}

bool Asked::may_move(int from, int to, int tick) const {
    for (const Ban &ban : bans)
        if (ban.kind == BanKind::move && ban.from == from && ban.to == to && ban.first <= tick &&
            tick <= ban.last) return false;
    return true;
}

bool Asked::rests_from(int place, int tick) const {
    for (const Ban &ban : bans)
        if (ban.kind == BanKind::stand && ban.from == place && ban.last >= tick) return false;
    return true;
}

Asked asked_of(int cart, const std::vector<Trip> &trips, const std::vector<Ban> &bans) {
    Asked asked;
    for (const Ban &ban : bans) {
        if (ban.cart == cart) {
            if (ban.kind == BanKind::late) asked.least = std::max(asked.least, ban.first + 1);
            else if (ban.kind == BanKind::by) asked.most = std::min(asked.most, ban.first);
            else asked.bans.push_back(ban);
        } else if (ban.kind == BanKind::by) {
            const int closed = trips[static_cast<size_t>(ban.cart)].target;
            asked.bans.push_back({BanKind::stand, cart, closed, closed, ban.first, for_ever});
        }
    }
    return asked;
}

bool keeps(const Route &route, int cart, const std::vector<Trip> &trips, const Ban &ban) {
    const int length = static_cast<int>(route.size()) - 1;
    const Asked asked = asked_of(cart, trips, {ban});
    if (length < asked.least || length > asked.most) return false;
    for (int tick = 0; tick <= length; ++tick) {
        if (!asked.may_stand(place_at(route, tick), tick)) return false;
        if (tick > 0 && !asked.may_move(place_at(route, tick - 1), place_at(route, tick), tick)) return false;
    }
    return asked.rests_from(route.back(), length);
}

namespace {

constexpr int unreached = 1 << 30;

// The bans that hold at one tick.
Asked at_tick(const Asked &asked, int tick) {
    Asked now;
    for (const Ban &ban : asked.bans)
        if (ban.first <= tick && tick <= ban.last) now.bans.push_back(ban);
    return now;
}

// A search tick by tick. Each layer has, for each place that can be reached at its tick, the fewest
// conflicts of a walk to it and the place before.
class Layers {
public:
    Layers(const Hall &hall, const Trip &trip, const Asked &asked, const std::vector<Route> &others)
        : hall(hall), trip(trip), asked(asked), around(hall.next.size()) {
        for (const Route &other : others)
            if (!other.empty()) traffic.push_back(&other);
        conflicts.assign(hall.next.size(), unreached);
        if (asked.may_stand(trip.start, 0)) conflicts[static_cast<size_t>(trip.start)] = 0;
        ended = conflicts[static_cast<size_t>(trip.start)] == unreached;
    }

    Found run(Route &route) {
        const bool stays = trip.start == trip.target && asked.least == 0;
        if (!ended && stays && asked.rests_from(trip.start, 0)) {
            route = {trip.start};
            return Found::route;
        }
        for (tick = 1; tick <= most_steps && tick <= asked.most && !ended; ++tick) {
            step();
            if (entered >= 0 && tick >= asked.least && asked.rests_from(trip.target, tick)) {
                route = way_back();
                return Found::route;
            }
        }
        return ended || tick > asked.most ? Found::none : Found::too_long;
    }

private:
    void step() {
        now = at_tick(asked, tick);
        std::vector<int> reached(hall.next.size(), unreached);
        parents.emplace_back(hall.next.size(), int16_t{-1});
        entered = -1;
        entered_conflicts = unreached;
        for (const Route *other : traffic) ++around[static_cast<size_t>(place_at(*other, tick))];
        for (int from = 0; from < hall.places(); ++from) {
            if (conflicts[static_cast<size_t>(from)] == unreached) continue;
            go(from, from, reached);
            for (int to : hall.next[static_cast<size_t>(from)]) go(from, to, reached);
        }
        for (const Route *other : traffic) --around[static_cast<size_t>(place_at(*other, tick))];
        conflicts = std::move(reached);
        ended = std::all_of(conflicts.begin(), conflicts.end(), [](int c) { return c == unreached; });
    }

    void go(int from, int to, std::vector<int> &reached) {
        if (!now.may_move(from, to, tick) || !now.may_stand(to, tick)) return;
        int sum = conflicts[static_cast<size_t>(from)] + around[static_cast<size_t>(to)];
        if (from != to)
            for (const Route *other : traffic)
                if (place_at(*other, tick - 1) == to && place_at(*other, tick) == from) ++sum;
        if (sum < reached[static_cast<size_t>(to)]) {
            reached[static_cast<size_t>(to)] = sum;
            parents.back()[static_cast<size_t>(to)] = static_cast<int16_t>(from);
        }
        if (to == trip.target && from != to && sum < entered_conflicts) {
            entered = from;
            entered_conflicts = sum;
        }
    }

    // The route that has just entered the target.
    Route way_back() const {
        Route route{trip.target, entered};
        for (size_t i = parents.size() - 1; i-- > 0;)
            route.push_back(parents[i][static_cast<size_t>(route.back())]);
        std::reverse(route.begin(), route.end());
        return route;
    }

    const Hall &hall;
    const Trip trip;
    const Asked &asked;
    std::vector<const Route *> traffic;
    std::vector<int> around;     // how many others are at each place at the tick
    std::vector<int> conflicts;  // of the last layer
    std::vector<std::vector<int16_t>> parents;  // by tick, from 1
    Asked now;
    int tick = 0;
    int entered = -1;  // the best place before the target at the tick
    int entered_conflicts = unreached;
    bool ended = false;
};

}  // namespace

Found find_route(const Hall &hall, const Trip &trip, const Asked &asked,
                 const std::vector<Route> &others, Route &route) {
    return Layers(hall, trip, asked, others).run(route);
}

std::optional<int> first_visit(const Hall &hall, int start, const Asked &asked, int place, int limit) {
    std::vector<int> row;
    if (asked.may_stand(start, 0)) row.push_back(start);
    for (int tick = 0; tick <= limit && !row.empty(); ++tick) {
        if (std::find(row.begin(), row.end(), place) != row.end()) return tick;
        const Asked now = at_tick(asked, tick + 1);
        std::vector<bool> seen(hall.next.size());
        std::vector<int> next_row;
        const auto go = [&](int from, int to) {
            if (seen[static_cast<size_t>(to)] || !now.may_move(from, to, tick + 1)) return;
            if (!now.may_stand(to, tick + 1)) return;
            seen[static_cast<size_t>(to)] = true;
            next_row.push_back(to);
        };
        for (int from : row) {
            go(from, from);
            for (int to : hall.next[static_cast<size_t>(from)]) go(from, to);
        }
        row = std::move(next_row);
    }
    return std::nullopt;
}

}  // namespace generate
