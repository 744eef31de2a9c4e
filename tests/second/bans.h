// Bans, and the trips of the carts that they are on.
#pragma once

#include "floor.h"

#include <vector>

namespace second {

using Tick = unsigned;

constexpr Tick for_ever = ~0u;

struct Trip {
    Place start;
    Place target;
};

enum class BanKind { stand, move, late, by };

struct Ban {
    BanKind kind;
    unsigned cart;
    Place from;  // of a stand ban, the place
    Place to;    // of a move ban only
    Tick first;  // of a late or by ban, its tick
    Tick last;   // of a stand or move ban only
};

inline Ban stand_ban(unsigned cart, Place place, Tick first, Tick last) {
    return {BanKind::stand, cart, place, place, first, last};
}

inline Ban move_ban(unsigned cart, Place from, Place to, Tick first, Tick last) {
    return {BanKind::move, cart, from, to, first, last};
}

inline Ban late_ban(unsigned cart, Tick tick) { return {BanKind::late, cart, 0, 0, tick, tick}; }

inline Ban by_ban(unsigned cart, Tick tick) { return {BanKind::by, cart, 0, 0, tick, tick}; }

// What the bans ask of one cart.
struct CartBans {
    struct Stand {
        Place place;
        Tick first, last;
    };
    struct Move {
        Place from, to;
        Tick first, last;
    };

    std::vector<Stand> stands;  // its stand bans, and the targets that other carts' by bans close
    std::vector<Move> moves;
    Tick least_length = 0;         // by its late bans
    Tick most_length = for_ever;   // by its by bans
};

inline CartBans bans_on(unsigned cart, const std::vector<Trip> &trips, const std::vector<Ban> &bans) {
    CartBans on;
    for (const Ban &ban : bans) {
        const bool own = ban.cart == cart;
        switch (ban.kind) {
        case BanKind::stand:
            if (own) on.stands.push_back({ban.from, ban.first, ban.last});
            break;
        case BanKind::move:
            if (own) on.moves.push_back({ban.from, ban.to, ban.first, ban.last});
            break;
        case BanKind::late:
            if (own) on.least_length = std::max(on.least_length, ban.first + 1);
            break;
        case BanKind::by:
            if (own) on.most_length = std::min(on.most_length, ban.first);
            else on.stands.push_back({trips[ban.cart].target, ban.first, for_ever});
            break;
        }
    }
    return on;
}

}  // namespace second
