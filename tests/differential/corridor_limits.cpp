#include "limits.h"

namespace differential {
namespace {

using Cases = std::vector<std::pair<File, std::string>>;

std::vector<Limit> on_map(const std::string &what, const File &map, const Cases &cases) {
    std::vector<Limit> limits;
    for (const auto &[plan, line] : cases)
        limits.push_back({what + " " + std::to_string(limits.size()), map, plan, line});
    return limits;
}

// On a line of places 0 to 79: cart 0 from 1 to 67, cart 1 from 66 to 0.
Plan passing() { return Plan(0, 2).trip(1, 67).trip(66, 0); }

File asks(int a, int b, int p, int q, int k, int m, int n) {
    return passing().corridor(a, b, p, q, k, m, n).settle().file;
}

// Cart 0 is at place c for the first time at tick c - 1, cart 1 at tick 66 - c.
Cases lengths() {
    return {
        {asks(0, 1, 2, 3, 63, 127, 127), "open 2"},
        {asks(0, 1, 2, 3, 63, 128, 127), "refused call 19 14"},
        {asks(0, 1, 2, 3, 63, 127, 128), "refused call 19 14"},
        {asks(0, 1, 2, 3, 63, 0, 0), "open 2"},
        {asks(0, 1, 2, 3, 0, 0, 0), "refused call 19 14"},
        {asks(0, 1, 2, 3, 64, 0, 0), "refused call 19 14"},
        {asks(0, 1, 2, 3, 65, 0, 0), "refused call 19 14"},
        {asks(0, 1, 2, 3, 255, 0, 0), "refused call 19 14"},
        {asks(0, 1, 2, 3, 1, 65, 3), "open 2"},
        {asks(0, 1, 2, 3, 1, 66, 3), "refused call 19 14"},
        {asks(0, 1, 2, 3, 1, 65, 4), "refused call 19 14"},
        {asks(0, 1, 2, 3, 62, 126, 125), "open 2"},
        {asks(0, 1, 2, 3, 62, 127, 125), "refused call 19 14"},
        {asks(0, 1, 2, 3, 62, 126, 126), "refused call 19 14"},
        {asks(1, 0, 65, 64, 63, 127, 127), "open 2"},
        {asks(1, 0, 65, 64, 63, 128, 127), "refused call 19 14"},
    };
}

Cases operands() {
    return {
        {asks(0, 1, 2, 3, 63, 4000, 0), "refused call 19 14"},
        {asks(0, 1, 2, 3, 63, 4001, 0), "refused call 18 14"},
        {asks(0, 1, 2, 3, 63, 0, 4000), "refused call 19 14"},
        {asks(0, 1, 2, 3, 63, 0, 4001), "refused call 18 14"},
        {asks(0, 1, 2, 4, 0, 4001, 0), "refused call 18 14"},
        {asks(0, 1, 2, 80, 0, 4001, 0), "refused call 6 14"},
        {asks(0, 1, 80, 79, 0, 4001, 0), "refused call 6 14"},
        {asks(0, 2, 80, 79, 0, 4001, 0), "refused call 12 14"},
        {asks(2, 0, 80, 79, 0, 4001, 0), "refused call 12 14"},
        {asks(1, 1, 80, 79, 0, 4001, 0), "refused call 12 14"},
        {asks(0, 1, 2, 4, 1, 0, 0), "refused call 19 14"},
        {asks(0, 1, 2, 2, 1, 0, 0), "refused call 19 14"},
    };
}

Cases starts() {
    return {
        {asks(0, 1, 65, 64, 63, 0, 0), "open 2"},  // each goes the other way, but not by tick 0
        {asks(0, 1, 65, 64, 63, 1, 0), "refused call 19 14"},
        {asks(0, 1, 65, 64, 63, 0, 1), "refused call 19 14"},
        {asks(0, 1, 0, 1, 2, 0, 0), "refused call 19 14"},
        {asks(0, 1, 0, 1, 1, 0, 0), "refused call 19 14"},
        {asks(0, 1, 1, 2, 63, 128, 126), "open 2"},
        {asks(0, 1, 1, 2, 63, 129, 126), "refused call 19 14"},
        {asks(0, 1, 1, 2, 63, 128, 127), "refused call 19 14"},
        {asks(0, 1, 3, 4, 63, 126, 128), "open 2"},
        {asks(0, 1, 4, 5, 63, 0, 0), "refused call 19 14"},
    };
}

// A line of places 0 to 10, with place 11 beside place 5; the carts start at its ends.
Cases ends() {
    const auto asks = [](int a, int b, int p, int q, int k, int m, int n) {
        return Plan(0, 2).trip(0, 10).trip(10, 0).corridor(a, b, p, q, k, m, n).settle().file;
    };
    return {
        {asks(0, 1, 2, 3, 3, 11, 8), "open 2"},
        {asks(0, 1, 2, 3, 3, 12, 8), "refused call 19 14"},
        {asks(0, 1, 2, 3, 3, 11, 9), "refused call 19 14"},
        {asks(0, 1, 2, 3, 4, 0, 0), "refused call 19 14"},  // place 5 has three neighbours
        {asks(1, 0, 2, 1, 2, 4, 12), "open 2"},
        {asks(1, 0, 2, 1, 3, 0, 0), "refused call 19 14"},  // place 0 has one neighbour
        {asks(0, 1, 0, 1, 5, 15, 10), "open 2"},
        {asks(0, 1, 11, 5, 1, 0, 0), "open 2"},
    };
}

// A ring of places 0 to 5. Cart 0 goes from 0 to 3, cart 1 back, and cart 2 rests at 4.
Cases rings() {
    const auto plan = [] { return Plan(0, 3).trip(0, 3).trip(3, 0).trip(4, 4); };
    return {
        {plan().corridor(0, 1, 0, 1, 3, 2, 2).settle().file, "open 2"},
        {plan().corridor(0, 1, 0, 1, 3, 3, 2).settle().file, "refused call 19 19"},
        {plan().corridor(0, 1, 0, 1, 3, 2, 3).settle().file, "refused call 19 19"},
        {plan().corridor(0, 1, 0, 1, 5, 0, 0).settle().file, "refused call 19 19"},
        {plan().corridor(0, 1, 0, 1, 6, 0, 0).settle().file, "refused call 19 19"},
        // Cart 2 has arrived by tick 0, so that nobody else goes by place 4.
        {plan().target(2, 0).close().corridor(0, 1, 0, 1, 3, 6, 6).settle().file, "open 2"},
        {plan().target(2, 0).close().corridor(0, 1, 0, 1, 3, 7, 6).settle().file, "refused call 19 24"},
        {plan().target(2, 0).close().corridor(0, 1, 0, 1, 3, 6, 7).settle().file, "refused call 19 24"},
        {plan().target(2, 0).corridor(0, 1, 0, 1, 3, 6, 6).settle().file, "refused call 19 23"},
        // By tick 2 the way round can still be gone: place 4 is left at tick 2, and 3 reached at 3.
        {plan().target(2, 2).close().corridor(0, 1, 0, 1, 3, 3, 2).settle().file, "open 2"},
        {plan().target(2, 3).close().corridor(0, 1, 0, 1, 3, 3, 2).settle().file, "refused call 19 24"},
        {plan().target(2, 2).close().corridor(0, 1, 0, 1, 3, 2, 3).settle().file, "refused call 19 24"},
        {plan().target(2, 1).close().corridor(0, 1, 0, 1, 3, 2, 3).settle().file, "open 2"},
    };
}

// The ring with a way into it at place 0, from 6, and 7 behind that; the carts start there.
Cases loops() {
    const auto asks = [](int k) {
        return Plan(0, 2).trip(6, 7).trip(7, 6).corridor(0, 1, 0, 1, k, 0, 0).settle().file;
    };
    return {
        {asks(1), "open 2"},
        {asks(5), "open 2"},
        {asks(6), "refused call 19 14"},
        {asks(7), "refused call 19 14"},
    };
}

Cases triangles() {
    const auto asks = [](int k, int m, int n) {
        return Plan(0, 2).trip(0, 2).trip(2, 0).corridor(0, 1, 0, 1, k, m, n).settle().file;
    };
    return {
        {asks(2, 0, 0), "open 2"},
        {asks(2, 1, 0), "refused call 19 14"},
        {asks(2, 0, 1), "refused call 19 14"},
        {asks(3, 0, 0), "refused call 19 14"},
        {asks(63, 0, 0), "refused call 19 14"},
    };
}

}  // namespace

std::vector<Limit> corridor_limits() {
    const File line = ListMap(80).line(0, 79).file;
    std::vector<Limit> limits = on_map("length", line, lengths());
    const auto append = [&](const std::vector<Limit> &more) {
        limits.insert(limits.end(), more.begin(), more.end());
    };
    append(on_map("operands", line, operands()));
    append(on_map("start", line, starts()));
    append(on_map("end", ListMap(12).line(0, 10).join(11, 5).file, ends()));
    append(on_map("ring", ListMap(6).line(0, 5).join(5, 0).file, rings()));
    append(on_map("loop", ListMap(8).line(0, 5).join(5, 0).join(0, 6).join(6, 7).file, loops()));
    append(on_map("triangle", ListMap(3).line(0, 2).join(2, 0).file, triangles()));
    return limits;
}

}  // namespace differential
