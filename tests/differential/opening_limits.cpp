#include "limits.h"

namespace differential {
namespace {

// Carts that are at their targets, each at the place of its number.
Plan resting(int claim, int carts) {
    Plan plan(claim, carts);
    for (int cart = 0; cart < carts; ++cart) plan.trip(cart, cart);
    return plan;
}

using Cases = std::vector<std::pair<File, std::string>>;

Cases heading_cases() {
    return {
        {{}, "refused file 22 0"},
        {text("Z"), "refused file 21 0"},
        {text("C"), "refused file 21 0"},
        {text("O"), "refused file 22 1"},
        {text("O12"), "refused file 22 3"},
        {Plan(0, 0).file, "refused call 9 0"},
        {Plan(0, 1).file, "refused file 22 4"},
        {Plan(0, 16).file, "refused file 22 4"},
        {Plan(0, 17).file, "refused call 9 0"},
        {Plan(4001, 255).file, "refused call 9 0"},
        {Plan(0, 1).settle().file, "refused file 21 4"},
        {Plan(0, 1).one('C').two(0).one(0).file, "refused file 22 8"},
        {Plan(0, 2).trip(0, 1).close().file, "refused file 21 9"},
        {Plan(4001, 2).trip(0, 1).file, "refused file 22 9"},
        {resting(0, 16).close().settle().file, "unshown 16"},
        {resting(0, 16).file, "refused file 22 84"},
        {resting(0, 1).trip(1, 1).file, "refused file 21 9"},
        {resting(0, 1).one('O').file, "refused file 21 9"},
        {resting(0, 1).one('O').two(0).one(1).file, "refused file 21 9"},
    };
}

Cases opening_cases() {
    return {
        {resting(4000, 1).close().settle().file, "refused call 20 9"},
        {resting(4001, 1).file, "refused call 11 0"},
        {resting(65535, 1).file, "refused call 11 0"},
        {Plan(4001, 1).trip(20, 0).file, "refused call 11 0"},
        {Plan(4001, 1).trip(0, 0).one('Q').file, "refused call 11 0"},
        {Plan(1, 1).trip(20, 0).file, "refused call 6 0"},
        {Plan(1, 1).trip(0, 20).file, "refused call 6 0"},
        {Plan(1, 2).trip(0, 0).trip(0, 20).file, "refused call 6 0"},
        {Plan(1, 2).trip(0, 1).trip(0, 2).file, "refused call 10 0"},
        {Plan(1, 2).trip(0, 2).trip(1, 2).file, "refused call 10 0"},
        {Plan(2, 2).trip(0, 1).trip(1, 0).settle().file, "open 1"},
        {Plan(4000, 1).trip(0, 19).close().settle().file, "unshown 1"},  // place 19 is not joined to any
        {Plan(0, 1).trip(0, 1).close().settle().file, "unshown 1"},
        {Plan(1, 1).trip(0, 1).close().settle().file, "unshown 1"},
        {Plan(2, 1).trip(0, 1).close().settle().file, "refused call 20 9"},
    };
}

Cases end_cases() {
    return {
        {resting(0, 1).settle().file, "open 1"},
        {resting(0, 1).settle().settle().file, "refused file 23 10"},
        {resting(0, 1).close().file, "refused file 22 10"},
        {resting(0, 1).close().close().file, "refused call 16 10"},
        {resting(0, 1).close().target(0, 9999).file, "refused call 16 10"},
        {resting(0, 1).close().one('T').one(0).file, "refused file 22 12"},
        {resting(0, 1).close().route(0, {0}).settle().file, "least 0"},
        {resting(0, 1).close().route(0, {0}).settle().one(0).file, "refused file 23 16"},
        {resting(0, 1).one('x').file, "refused file 21 9"},
        {resting(0, 1).one(0).file, "refused file 21 9"},
        {resting(0, 1).one('P').file, "refused file 21 9"},
        {resting(0, 1).one('W').file, "refused file 21 9"},
        {resting(0, 1).one('V').one(0).file, "refused file 22 11"},
        {resting(0, 1).one('K').two(1).two(1).two(1).two(1).two(1).file, "refused file 22 20"},
    };
}

}  // namespace

std::vector<Limit> opening_limits() {
    const File map = ListMap(20).line(0, 18).file;
    std::vector<Limit> limits;
    for (const Cases &cases : {heading_cases(), opening_cases(), end_cases()})
        for (const auto &[plan, line] : cases)
            limits.push_back({"opening " + std::to_string(limits.size()), map, plan, line});
    return limits;
}

}  // namespace differential
