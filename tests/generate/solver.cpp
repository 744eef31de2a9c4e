#include "solver.h"

#include "in_turn.h"

#include <algorithm>
#include <queue>

namespace generate {
namespace {

constexpr int deepest = 64;

struct Queued {
    int cost, conflicts, node;

    // The cheapest comes first, of these the one with the fewest conflicts, of these the newest.
    bool operator<(const Queued &other) const {
        if (cost != other.cost) return cost > other.cost;
        if (conflicts != other.conflicts) return conflicts > other.conflicts;
        return node < other.node;
    }
};

class Solver {
public:
    Solver(const Problem &problem, const Options &options) : problem(problem), options(options) {}

    Tree run() {
        Node root;
        root.routes.resize(problem.trips.size());
        for (size_t cart = 0; cart < problem.trips.size(); ++cart) plan_again(root, cart, {});
        finish(root);
        add(std::move(root));
        int splits = 0;
        while (true) {
            const int best = queue.top().node;
            const Node &node = tree.nodes[static_cast<size_t>(best)];
            tree.bound = node.cost;
            tree.solved = node.solvable && node.conflicts == 0;
            if (tree.solved) tree.routes = node.routes;
            if (tree.solved || !node.solvable || node.depth == deepest || splits == options.splits) break;
            queue.pop();
            expand(best);
            ++splits;
        }
        return std::move(tree);
    }

private:
    void add(Node node) {
        queue.push({node.cost, node.conflicts, static_cast<int>(tree.nodes.size())});
        tree.nodes.push_back(std::move(node));
    }

    std::vector<Ban> bans_of(int node) const {
        std::vector<Ban> bans;
        for (; tree.nodes[static_cast<size_t>(node)].parent >= 0; node = tree.nodes[static_cast<size_t>(node)].parent)
            bans.push_back(tree.nodes[static_cast<size_t>(node)].ban);
        return bans;
    }

    // Plans a new route for the cart; adds its length, or the least that it may be, to the cost
    // of a branch without routes.
    void plan_again(Node &node, size_t cart, const std::vector<Ban> &bans) {
        const Asked asked = asked_of(static_cast<int>(cart), problem.trips, bans);
        std::vector<Route> others = node.routes;
        others[cart].clear();
        Route route;
        const Found found = find_route(problem.hall, problem.trips[cart], asked, others, route);
        node.routes[cart] = found == Found::route ? route : Route();
        if (found == Found::route) return;
        node.solvable = false;
        node.cost += found == Found::none ? no_route_at_all : most_steps + 1;
    }

    void finish(Node &node) {
        for (const Route &route : node.routes)
            if (!route.empty()) node.cost += static_cast<int>(route.size()) - 1;
        node.cost = std::min(node.cost, no_route_at_all);
        node.conflicts = static_cast<int>(find_conflicts(node.routes).size());
    }

    Node side(int parent, const std::vector<Ban> &bans, const Ban &ban) {
        Node node;
        node.parent = parent;
        node.ban = ban;
        node.routes = tree.nodes[static_cast<size_t>(parent)].routes;
        node.depth = tree.nodes[static_cast<size_t>(parent)].depth + 1;
        std::vector<Ban> all = bans;
        all.push_back(ban);
        for (size_t cart = 0; cart < problem.trips.size(); ++cart)
            if (!keeps(node.routes[cart], static_cast<int>(cart), problem.trips, ban)) plan_again(node, cart, all);
        finish(node);
        return node;
    }

    Split split_on(const Conflict &conflict, const std::vector<Route> &routes, const std::vector<Ban> &bans) {
        if (options.use_target)
            if (auto split = target_split(conflict, routes)) return *split;
        if (options.use_corridor)
            if (auto split = corridor_split(problem, conflict, routes, bans)) return *split;
        return plain_split(conflict);
    }

    // Splits the node on the conflict whose sides cost most.
    void expand(int at) {
        const std::vector<Ban> bans = bans_of(at);
        const std::vector<Route> routes = tree.nodes[static_cast<size_t>(at)].routes;
        std::vector<Conflict> conflicts = find_conflicts(routes);
        if (conflicts.size() > static_cast<size_t>(options.candidates))
            conflicts.resize(static_cast<size_t>(options.candidates));
        std::pair<int, int> best{-1, -1};
        Node left, right;
        for (const Conflict &conflict : conflicts) {
            const Split split = split_on(conflict, routes, bans);
            Node new_left = side(at, bans, split.left), new_right = side(at, bans, split.right);
            const auto costs = std::minmax(new_left.cost, new_right.cost);
            if (std::pair<int, int>(costs) <= best) continue;
            best = costs;
            tree.nodes[static_cast<size_t>(at)].split = split.command;
            left = std::move(new_left);
            right = std::move(new_right);
        }
        tree.nodes[static_cast<size_t>(at)].left = static_cast<int>(tree.nodes.size());
        tree.nodes[static_cast<size_t>(at)].right = static_cast<int>(tree.nodes.size()) + 1;
        add(std::move(left));
        add(std::move(right));
    }

    const Problem &problem;
    const Options &options;
    Tree tree;
    std::priority_queue<Queued> queue;
};

}  // namespace

Tree solve(const Problem &problem, const Options &options) {
    Tree tree = Solver(problem, options).run();
    if (!tree.solved) tree.routes = routes_in_turn(problem);
    return tree;
}

}  // namespace generate
