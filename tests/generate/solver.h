// A small conflict-based search.
#pragma once

#include "splits.h"

namespace generate {

constexpr int no_route_at_all = 1 << 16;  // the cost of a branch under which a cart has no route

struct Node {
    int parent = -1;
    Ban ban{};             // under which it lies beside its parent's
    int left = -1, right = -1;
    File split;            // the command that splits it, if it has sides
    std::vector<Route> routes;
    int cost = 0;          // the least sum under its bans, or a lower bound if it is not solvable
    bool solvable = true;  // false if a cart's route is missing or longer than 255 steps
    int conflicts = 0;
    int depth = 0;
};

struct Tree {
    std::vector<Node> nodes;  // the root first
    bool solved = false;
    int bound = 0;              // no conflict-free set of routes sums to less
    std::vector<Route> routes;  // free of conflict, and of that sum if solved; may be missing if not
};

struct Options {
    int splits = 200;           // the most there may be
    bool use_target = true;     // T
    bool use_corridor = true;   // K
    int candidates = 6;         // so many conflicts are tried before one is split on
};

Tree solve(const Problem &problem, const Options &options);

}  // namespace generate
