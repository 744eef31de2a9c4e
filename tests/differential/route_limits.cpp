#include "limits.h"

namespace differential {
namespace {

// From p to q and back, in so many steps.
std::vector<int> to_and_fro(int p, int q, int steps) {
    std::vector<int> places{p};
    for (int step = 1; step <= steps; ++step) places.push_back(step % 2 == 1 ? q : p);
    return places;
}

// Two carts that pass each other on a line of places 0 to 9: from 0 to 4, and from 5 to 9.
Plan two_carts() { return Plan(8, 2).trip(0, 4).trip(5, 9); }

const std::vector<int> first{0, 1, 2, 3, 4};

using Cases = std::vector<std::pair<File, std::string>>;

Cases tests_of_routes() {
    return {
        {two_carts().one('R').file, "refused file 22 15"},
        {two_carts().one('R').one(9).file, "refused file 22 16"},
        {two_carts().one('R').one(9).one(0).one(0).file, "refused file 22 18"},
        {two_carts().one('R').one(0).one(255).file, "refused file 22 17"},
        {two_carts().route(2, first).file, "refused call 12 14"},
        {two_carts().route(255, {60}).file, "refused call 12 14"},
        {two_carts().route(0, first).route(0, {60}).file, "refused call 13 27"},
        {two_carts().route(0, {9, 60}).file, "refused call 6 14"},
        {two_carts().route(0, {1, 2, 3, 4}).file, "refused call 14 14"},
        {two_carts().route(0, {0, 1, 2, 3}).file, "refused call 14 14"},
        {two_carts().route(0, {0, 1, 3, 4}).file, "refused call 14 14"},
        {two_carts().route(0, {0, 1, 2, 3, 4, 4}).file, "refused call 14 14"},
        {two_carts().route(0, {0}).file, "refused call 14 14"},
        {two_carts().route(0, {0, 0, 1, 2, 3, 4}).close().settle().file, "unshown 1"},
        {two_carts().route(0, {0, 1, 2, 3, 4, 5, 4}).close().settle().file, "unshown 1"},
        {two_carts().route(0, first).route(1, {5, 6, 7, 8, 9}).close().settle().file, "least 8"},
    };
}

// 0 to 9 is a line; one cart goes from 0 to 4.
Cases conflicts() {
    const auto other = [](int start, int target) { return Plan(0, 2).trip(0, 4).trip(start, target); };
    return {
        {other(3, 2).route(0, first).route(1, {3, 2}).file, "refused call 15 27"},
        {other(1, 5).route(0, first).route(1, {1, 1, 2, 3, 4, 5}).file, "refused call 15 27"},
        {other(1, 0).route(0, first).route(1, {1, 0}).file, "refused call 15 27"},
        {other(5, 3).route(0, first).route(1, {5, 5, 5, 5, 5, 5, 4, 3}).file, "refused call 15 27"},
        {other(5, 3).route(1, {5, 4, 3}).route(0, first).file, "refused call 15 23"},
        {other(1, 5).route(0, first).route(1, {1, 2, 3, 4, 5}).close().settle().file, "othersum 8"},
    };
}

Cases rests() {
    return {
        {Plan(0, 1).trip(0, 0).route(0, {0}).close().settle().file, "least 0"},
        {Plan(0, 1).trip(0, 0).route(0, {0, 0}).file, "refused call 14 9"},
        {Plan(0, 1).trip(0, 0).route(0, {0, 1, 0}).close().settle().file, "othersum 2"},
        {Plan(1, 1).trip(0, 1).route(0, to_and_fro(0, 1, 255)).close().settle().file, "othersum 255"},
        {Plan(0, 1).trip(0, 0).route(0, to_and_fro(0, 1, 254)).close().settle().file, "othersum 254"},
        // 256 steps are written as 0, so the list is its first place, and a 0 stands behind it.
        {Plan(0, 1).trip(0, 0).route(0, to_and_fro(0, 1, 256)).file, "refused file 21 14"},
    };
}

// Sixteen carts, each on two places of its own, with the longest routes there are.
Limit longest_sum() {
    ListMap map(32);
    Plan plan(16, 16);
    for (int cart = 0; cart < 16; ++cart) {
        map.join(2 * cart, 2 * cart + 1);
        plan.trip(2 * cart, 2 * cart + 1);
    }
    for (int cart = 0; cart < 16; ++cart) plan.route(cart, to_and_fro(2 * cart, 2 * cart + 1, 255));
    return {"longest sum", map.file, plan.close().settle().file, "othersum 4080"};
}

}  // namespace

std::vector<Limit> route_limits() {
    const File map = ListMap(10).line(0, 9).file;
    std::vector<Limit> limits{longest_sum()};
    for (const Cases &cases : {tests_of_routes(), conflicts(), rests()})
        for (const auto &[plan, line] : cases)
            limits.push_back({"route " + std::to_string(limits.size()), map, plan, line});
    return limits;
}

}  // namespace differential
