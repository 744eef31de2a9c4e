#include "limits.h"

namespace differential {
namespace {

Plan two_carts(int claim) { return Plan(claim, 2).trip(0, 4).trip(5, 9); }

// So many splits, each of the left side of the one before.
Plan deep(int claim, int splits) {
    Plan plan = two_carts(claim);
    for (int i = 0; i < splits; ++i) plan.target(0, 0);
    return plan;
}

using Cases = std::vector<std::pair<File, std::string>>;

Cases depths() {
    const int offset = 14 + 64 * 4;  // of what follows 64 splits
    const std::string at = std::to_string(offset);
    return {
        {deep(0, 64).settle().file, "open 65"},
        {deep(0, 64).target(0, 0).file, "refused call 17 " + at},
        {deep(0, 64).target(200, 9999).file, "refused call 17 " + at},
        {deep(0, 64).one('T').one(0).file, "refused file 22 " + std::to_string(offset + 2)},
        {deep(0, 64).close().target(0, 0).file, "refused call 17 " + std::to_string(offset + 1)},
        {deep(0, 64).close(2).target(0, 0).settle().file, "open 64"},
        {deep(0, 64).close(64).settle().file, "open 1"},
        {deep(0, 64).close(65).settle().file, "unshown 2"},
        {deep(0, 64).close(66).file, "refused call 16 " + std::to_string(offset + 65)},
        {deep(0, 63).target(0, 0).close(65).settle().file, "unshown 2"},
    };
}

Cases vertices_and_edges() {
    return {
        {two_carts(8).vertex(0, 1, 0, 0).settle().file, "open 2"},
        {two_carts(8).vertex(0, 1, 9, 4000).settle().file, "open 2"},
        {two_carts(8).vertex(0, 1, 9, 4001).file, "refused call 18 14"},
        {two_carts(8).vertex(0, 1, 10, 4001).file, "refused call 6 14"},
        {two_carts(8).vertex(0, 0, 10, 4001).file, "refused call 12 14"},
        {two_carts(8).vertex(0, 2, 10, 4001).file, "refused call 12 14"},
        {two_carts(8).vertex(2, 0, 10, 4001).file, "refused call 12 14"},
        {two_carts(8).edge(0, 1, 3, 4, 0).file, "refused call 18 14"},
        {two_carts(8).edge(0, 1, 3, 4, 1).settle().file, "open 2"},
        {two_carts(8).edge(0, 1, 4, 3, 4000).settle().file, "open 2"},
        {two_carts(8).edge(0, 1, 4, 3, 4001).file, "refused call 18 14"},
        {two_carts(8).edge(0, 1, 4, 5, 0).file, "refused call 18 14"},
        {two_carts(8).edge(0, 1, 3, 5, 1).file, "refused call 19 14"},
        {two_carts(8).edge(0, 1, 3, 3, 1).file, "refused call 19 14"},
        {two_carts(8).edge(0, 1, 3, 3, 4001).file, "refused call 18 14"},
        {two_carts(8).edge(0, 1, 10, 3, 4001).file, "refused call 6 14"},
        {two_carts(8).edge(0, 1, 3, 10, 4001).file, "refused call 6 14"},
        {two_carts(8).edge(1, 1, 3, 10, 4001).file, "refused call 12 14"},
    };
}

// The least sum is 8: four steps for each cart.
Cases targets() {
    return {
        {two_carts(8).target(0, 4000).settle().file, "open 2"},
        {two_carts(8).target(0, 4001).file, "refused call 18 14"},
        {two_carts(8).target(2, 4001).file, "refused call 12 14"},
        {two_carts(10).target(0, 4).close().file, "refused call 20 18"},  // it can wait once: 5 + 4
        {two_carts(9).target(0, 4).close(2).file, "refused call 20 19"},
        {two_carts(8).target(0, 4).close(2).settle().file, "unshown 2"},
        {two_carts(4000).target(0, 4000).close().settle().file, "open 1"},
        {two_carts(4000).target(0, 3).close().file, "refused call 20 18"},
        {two_carts(4000).target(0, 3).target(0, 3).target(0, 3).target(0, 3).close().file, "refused call 20 30"},
        {two_carts(4000).target(0, 3994).close().file, "refused call 20 18"},
        {two_carts(4000).target(0, 3995).close().settle().file, "open 1"},
        {two_carts(4000).target(0, 3996).close().settle().file, "open 1"},
    };
}

// Where the bans of the left and right sides end.
Cases bans() {
    const auto rest = [](int claim) { return Plan(claim, 2).trip(0, 0).trip(5, 5); };
    return {
        // At 0 from the start on: a ban there at tick 0 leaves no walk.
        {rest(4000).vertex(0, 1, 0, 0).close().settle().file, "open 1"},
        // A ban at the target at tick 7 asks to be away at 7, and back at 8.
        {rest(8).vertex(0, 1, 0, 7).close().settle().file, "open 1"},
        {rest(9).vertex(0, 1, 0, 7).close().file, "refused call 20 21"},
        {rest(4000).vertex(0, 1, 0, 4000).close().settle().file, "open 1"},
        {rest(4000).vertex(0, 1, 0, 3999).close().settle().file, "open 1"},
        {rest(4000).vertex(0, 1, 0, 3998).close().file, "refused call 20 21"},
        // Later than 0 is 2, since it has to go away and come back.
        {rest(3).target(0, 0).close().file, "refused call 20 18"},
        {rest(2).target(0, 0).close(2).file, "refused call 20 19"},
        {rest(0).target(0, 0).close(2).settle().file, "unshown 2"},
        // Place 0 is closed for cart 1 from the tick on.
        {Plan(4000, 2).trip(0, 0).trip(1, 5).target(0, 0).close().settle().file, "refused call 20 18"},
        {Plan(4000, 2).trip(1, 0).trip(0, 5).target(0, 0).close().settle().file, "refused call 20 18"},
        {Plan(3, 2).trip(1, 0).trip(0, 5).target(0, 0).close().settle().file, "open 1"},
        {Plan(4000, 2).trip(1, 0).trip(0, 5).target(0, 4000).close(2).file, "refused call 20 19"},
        {Plan(6, 2).trip(1, 0).trip(0, 5).target(0, 4000).close(2).settle().file, "unshown 2"},
    };
}

}  // namespace

std::vector<Limit> split_limits() {
    const File map = ListMap(10).line(0, 9).file;
    std::vector<Limit> limits;
    for (const Cases &cases : {depths(), vertices_and_edges(), targets(), bans()})
        for (const auto &[plan, line] : cases)
            limits.push_back({"split " + std::to_string(limits.size()), map, plan, line});
    return limits;
}

}  // namespace differential
