#include "limits.h"

namespace differential {
namespace {

constexpr size_t most_bytes = 65536;

// A tree of so many splits, as even as can be, with all branches closed.
void put_tree(Plan &plan, int splits) {
    if (splits == 0) {
        plan.close();
        return;
    }
    plan.target(0, 0);
    put_tree(plan, (splits - 1) / 2);
    put_tree(plan, splits - 1 - (splits - 1) / 2);
}

// Two carts that rest, and a tree; 26 bytes, and 5 more for each split.
File tree_plan(int splits) {
    Plan plan = Plan(0, 2).trip(0, 0).trip(1, 1);
    plan.route(0, {0});
    put_tree(plan, splits);
    return plan.route(1, {1}).settle().file;
}

File padded(File file, size_t bytes, uint8_t byte) {
    file.resize(bytes, byte);
    return file;
}

}  // namespace

std::vector<Limit> file_limits() {
    const File map = ListMap(2).join(0, 1).file;
    const File full = tree_plan(13102), short_plan = tree_plan(1);
    const File small_grid = grid("1", "2", "..\n");
    return {
        {"full plan", map, full, "least 0"},
        {"plan cut by a byte", map, padded(full, most_bytes - 1, 0), "refused file 22 65535"},
        {"plan too long", map, padded(full, most_bytes + 1, 0), "unread"},
        {"bytes behind", map, padded(tree_plan(13101), most_bytes, 'Z'), "refused file 23 65531"},
        {"too many bytes behind", map, padded(tree_plan(13101), most_bytes + 1, 'Z'), "unread"},
        {"full list map", padded(map, most_bytes, 'X'), short_plan, "refused map 21 8"},
        {"list map too long", padded(map, most_bytes + 1, 'X'), short_plan, "unread"},
        {"full grid map", padded(small_grid, most_bytes, '\n'), short_plan, "refused map 3 36"},
        {"grid map too long", padded(small_grid, most_bytes + 1, '\n'), short_plan, "unread"},
        {"both too long", padded(map, most_bytes + 1, 0), padded(full, most_bytes + 1, 0), "unread"},
        {"wrong map, plan too long", {}, padded(full, most_bytes + 1, 0), "unread"},
        {"wrong map before wrong plan", {}, {}, "refused map 1 0"},
        {"small plan", map, short_plan, "least 0"},
        {"grid", small_grid, short_plan, "least 0"},
    };
}

}  // namespace differential
