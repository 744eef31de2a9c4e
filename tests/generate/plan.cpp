#include "plan.h"

#include <algorithm>

namespace generate {
namespace {

constexpr size_t most_bytes = 65536;
constexpr int most_claim = 4000;

// The tree's commands, left side first, and the branches that they leave open.
class TreeWriter {
public:
    TreeWriter(const Tree &tree, const Wish &wish, size_t room) : tree(tree), wish(wish), room(room) {}

    void run() {
        std::vector<int> stack{0};
        while (!stack.empty() && open > 0) {
            const Node &node = tree.nodes[static_cast<size_t>(stack.back())];
            const bool closable = node.cost >= wish.claim;
            File command = node.split;
            if (command.empty() || (closable && wish.close_early)) {
                if (!closable || ++closings > wish.most_closings) return;
                command = {'X'};
            } else if (++splits > wish.most_splits) {
                return;
            }
            if (bytes + command.size() > room) return;
            bytes += command.size();
            stack.pop_back();
            if (command[0] == 'X') --open;
            else {
                stack.push_back(node.right);
                stack.push_back(node.left);
                ++open;
            }
            commands.push_back(std::move(command));
        }
    }

    std::vector<File> commands;
    int open = 1;

private:
    const Tree &tree;
    const Wish &wish;
    const size_t room;
    size_t bytes = 0;
    int splits = 0, closings = 0;
};

File show_command(int cart, const Route &route) {
    File command{'R', static_cast<uint8_t>(cart), static_cast<uint8_t>(route.size() - 1)};
    for (int place : route) put_two(command, place);
    return command;
}

File heading(const Problem &problem, int claim) {
    File file{'O'};
    put_two(file, claim);
    file.push_back(static_cast<uint8_t>(problem.trips.size()));
    for (const Trip &trip : problem.trips) {
        file.push_back('C');
        put_two(file, trip.start);
        put_two(file, trip.target);
    }
    return file;
}

bool shows(const Tree &tree, const Wish &wish, size_t cart) {
    return wish.show[cart] && !tree.routes[cart].empty();
}

Outcome settled(const Tree &tree, const Wish &wish, int open) {
    int unshown = 0, sum = 0;
    for (size_t cart = 0; cart < wish.show.size(); ++cart) {
        if (shows(tree, wish, cart)) sum += static_cast<int>(tree.routes[cart].size()) - 1;
        else ++unshown;
    }
    if (open > 0) return {2, open};
    if (unshown > 0) return {3, unshown};
    if (sum != wish.claim) return {4, sum};
    return {1, sum};
}

}  // namespace

Plan write_plan(Random &random, const Problem &problem, const Tree &tree, const Wish &wish) {
    Plan plan;
    plan.file = heading(problem, wish.claim);
    std::vector<File> shown;
    size_t bytes = plan.file.size() + 1;
    for (size_t cart = 0; cart < problem.trips.size(); ++cart) {
        if (!shows(tree, wish, cart)) continue;
        shown.push_back(show_command(static_cast<int>(cart), tree.routes[cart]));
        bytes += shown.back().size();
    }
    TreeWriter writer(tree, wish, most_bytes - bytes);
    writer.run();
    random.shuffle(shown);
    std::vector<std::vector<File>> before(writer.commands.size() + 1);  // routes in front of each command
    for (File &command : shown) before[random.below(before.size())].push_back(std::move(command));
    for (size_t i = 0; i < before.size(); ++i) {
        for (const File &command : before[i]) plan.file.insert(plan.file.end(), command.begin(), command.end());
        if (i == writer.commands.size()) break;
        plan.file.insert(plan.file.end(), writer.commands[i].begin(), writer.commands[i].end());
    }
    plan.file.push_back('Z');
    plan.expected = settled(tree, wish, writer.open);
    return plan;
}

Wish full_wish(const Problem &problem, const Tree &tree) {
    Wish wish;
    wish.claim = std::min(tree.bound, most_claim);
    wish.show.assign(problem.trips.size(), true);
    return wish;
}

Wish random_wish(Random &random, const Problem &problem, const Tree &tree) {
    Wish wish = full_wish(problem, tree);
    wish.close_early = random.percent(50);
    switch (random.below(8)) {
    case 0:  // too low a claim
        wish.claim = random.between(0, wish.claim);
        break;
    case 1:  // one too high
        wish.claim = std::min(wish.claim + 1, most_claim);
        break;
    case 2:  // a route is missing, or more
        for (size_t cart = 0; cart < wish.show.size(); ++cart)
            if (random.percent(30)) wish.show[cart] = false;
        break;
    case 3:
        wish.most_splits = random.between(0, static_cast<int>(tree.nodes.size()) / 2);
        break;
    case 4:
        wish.most_closings = random.between(0, static_cast<int>(tree.nodes.size()) / 2);
        break;
    default:
        break;
    }
    return wish;
}

namespace {

Options random_options(Random &random) {
    Options options;
    options.splits = random.percent(5) ? random.between(100, 600) : random.between(10, 60);
    options.use_target = random.percent(60);
    options.use_corridor = random.percent(75);
    options.candidates = random.between(1, 6);
    return options;
}

// Trips anywhere, also where no route leads, but on the floor.
std::vector<Trip> careless_trips(Random &random, const Hall &hall) {
    const int p = random.between(0, hall.places() - 1), q = random.between(0, hall.places() - 1);
    return {{p, q}};
}

}  // namespace

Made make(Random &random) {
    const Kind kind = static_cast<Kind>(random.below(kinds));
    const int most = random.percent(10) ? 32 : random.percent(40) ? 12 : 7;
    const int width = random.between(1, most), height = random.between(1, most);
    const Hall hall = make_hall(random, kind, width, height);
    const int carts = random.percent(15) ? random.between(8, 16) : random.between(1, 7);
    const std::vector<Trip> trips = random.percent(3) ? careless_trips(random, hall) : make_trips(random, hall, carts);
    const Problem problem{hall, trips};
    const Tree tree = solve(problem, random_options(random));
    const Wish wish = random_wish(random, problem, tree);
    return {hall, trips, wish.claim, write_plan(random, problem, tree, wish)};
}

}  // namespace generate
