// Writes floor.map and plan.work for a random hall into a folder, and prints how the plan settles.
#include "files.h"
#include "plan.h"

namespace {

using namespace generate;

const char usage[] =
    "usage: generate FOLDER SEED KIND WIDTH HEIGHT CARTS SPLITS [LETTERS]\n"
    "  KIND: list chains open blocks rooms aisles corridors; WIDTH, HEIGHT: 1 to 32; CARTS: 1 to 16\n"
    "  SPLITS: the most there may be; LETTERS: VETK or less of T and K\n";

}  // namespace

int main(int argc, char **argv) {
    if (argc < 8 || argc > 9) {
        std::fputs(usage, stderr);
        return 2;
    }
    Random random(std::strtoull(argv[2], nullptr, 10));
    const Hall hall = make_hall(random, kind_named(argv[3]), std::atoi(argv[4]), std::atoi(argv[5]));
    const std::vector<Trip> trips = make_trips(random, hall, std::atoi(argv[6]));
    const std::string letters = argc > 8 ? argv[8] : "VETK";
    Options options;
    options.splits = std::atoi(argv[7]);
    options.use_target = letters.find('T') != std::string::npos;
    options.use_corridor = letters.find('K') != std::string::npos;
    const Problem problem{hall, trips};
    const Tree tree = solve(problem, options);
    const Plan plan = write_plan(random, problem, tree, full_wish(problem, tree));
    const std::filesystem::path folder = argv[1];
    std::filesystem::create_directories(folder);
    write_file(folder / "floor.map", hall.map);
    write_file(folder / "plan.work", plan.file);
    const char *words[] = {"", "least", "open", "unshown", "othersum"};
    std::printf("%s %d\n", words[plan.expected.verdict], plan.expected.number);
    std::fprintf(stderr, "%zu places, %zu carts, %zu splits, %zu bytes\n", hall.next.size(), trips.size(),
                 tree.nodes.size() / 2, plan.file.size());
    return 0;
}
