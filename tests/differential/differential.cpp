// Feeds the same files to the proved checker and to the second one, and compares every byte of
// what they write. Arguments: a seed, how many files to feed, the folder for files that differ, and
// any number of folders with a floor.map and a plan.work, which are fed whole and damaged.
#include "../generate/files.h"
#include "../generate/plan.h"
#include "calls.h"
#include "damage.h"
#include "exact.h"
#include "feed.h"
#include "limits.h"

namespace {

using namespace differential;

void feed_limits(Feeder &feeder) {
    for (const auto &limits : {map_limits(), opening_limits(), route_limits(), split_limits(),
                               corridor_limits(), file_limits()}) {
        for (const Limit &limit : limits) {
            const std::string line = feeder.feed(limit.map, limit.plan);
            if (line != limit.line)
                feeder.report(limit.name + ": " + line + " in place of " + limit.line, limit.map, limit.plan);
        }
    }
}

// Cuts of both files at every place.
void feed_cuts(Feeder &feeder, const File &map, const File &plan) {
    for (size_t bytes = 0; bytes < map.size(); ++bytes)
        feeder.feed(File(map.begin(), map.begin() + static_cast<std::ptrdiff_t>(bytes)), plan);
    for (size_t bytes = 0; bytes < plan.size(); ++bytes)
        feeder.feed(map, File(plan.begin(), plan.begin() + static_cast<std::ptrdiff_t>(bytes)));
}

// Every bit of both files turned, one at a time.
void feed_bits(Feeder &feeder, File map, File plan) {
    for (File *file : {&map, &plan}) {
        for (size_t bit = 0; bit < 8 * file->size(); ++bit) {
            const uint8_t mask = static_cast<uint8_t>(1u << bit % 8);
            (*file)[bit / 8] ^= mask;
            feeder.feed(map, plan);
            (*file)[bit / 8] ^= mask;
        }
    }
}

// Each byte of the plan in turn with every other value, and cuts at every place.
void feed_bytes(Feeder &feeder, const File &map, File plan) {
    for (uint8_t &byte : plan) {
        const uint8_t kept = byte;
        for (int value = 0; value < 256; ++value) {
            byte = static_cast<uint8_t>(value);
            if (byte != kept) feeder.feed(map, plan);
        }
        byte = kept;
    }
    feed_cuts(feeder, map, plan);
}

// Damages of the plan, the map or both, and two plans spliced.
void feed_damaged(Feeder &feeder, Random &random, const File &map, const File &plan, const File &other_plan) {
    for (int i = 0; i < 20; ++i) {
        File bad_plan = damaged(random, plan);
        while (random.percent(25)) bad_plan = damaged(random, bad_plan);
        feeder.feed(map, bad_plan);
    }
    for (int i = 0; i < 4; ++i) feeder.feed(damaged(random, map), plan);
    const File bad_map = damaged(random, map);
    feeder.feed(bad_map, damaged(random, plan));
    for (int i = 0; i < 2; ++i) feeder.feed(map, spliced(random, plan, other_plan));
}

// What a plan says when its tree is closed: no conflict-free set of routes sums to less than its claim.
void compare_with_exact(Feeder &feeder, const Case &made, const std::string &line) {
    const bool least = line.rfind("least", 0) == 0;
    const bool closed = least || line.rfind("othersum", 0) == 0 || line.rfind("unshown", 0) == 0;
    if (!closed || !is_small(made.hall, made.trips)) return;
    const std::optional<int> sum = least_sum(made.hall, made.trips);
    feeder.count(least ? "(least sums searched exactly)" : "(lower bounds searched exactly)");
    if (least ? !sum || *sum != made.claim : sum && *sum < made.claim)
        feeder.report(line + ", but the least sum is " + (sum ? std::to_string(*sum) : "none"), made.hall.map, made.plan);
}

void feed_calls(Feeder &feeder, Random &random) {
    for (int i = 0; i < 60; ++i) {
        const Case made = random_calls(random);
        compare_with_exact(feeder, made, feeder.feed(made.hall.map, made.plan));
    }
    for (int i = 0; i < 3; ++i) {
        const Joins joins = random_joins(random);
        feeder.feed(joins.map, joins.plan);
    }
}

void feed_generated(Feeder &feeder, const Case &made, const generate::Outcome &expected) {
    static const char *words[] = {"", "least", "open", "unshown", "othersum"};
    const std::string expected_line = std::string(words[expected.verdict]) + " " + std::to_string(expected.number);
    const std::string line = feeder.feed(made.hall.map, made.plan);
    if (line != expected_line)
        feeder.report("a generated plan: " + line + " in place of " + expected_line, made.hall.map, made.plan);
    compare_with_exact(feeder, made, line);
}

void feed_folder(Feeder &feeder, Random &random, const std::filesystem::path &folder) {
    const File map = generate::read_file(folder / "floor.map");
    const File plan = generate::read_file(folder / "plan.work");
    std::printf("%s: %s\n", folder.c_str(), feeder.feed(map, plan).c_str());
    if (plan.size() < 64) feed_bytes(feeder, map, plan);
    for (int i = 0; i < 10; ++i) feed_damaged(feeder, random, map, plan, plan);
}

}  // namespace

int main(int argc, char **argv) {
    if (argc < 3) {
        std::fprintf(stderr, "usage: differential SEED COUNT [FOLDER [PLAN-FOLDER..]]\n");
        return 2;
    }
    const uint64_t seed = std::strtoull(argv[1], nullptr, 10);
    const size_t count = std::strtoull(argv[2], nullptr, 10);
    Random random(seed);
    Feeder feeder(argc > 3 ? argv[3] : "differences");
    feed_limits(feeder);
    for (int i = 4; i < argc; ++i) feed_folder(feeder, random, argv[i]);
    File other_plan;
    while (feeder.files() < count) {
        const generate::Made generated = generate::make(random);
        const Case made{generated.hall, generated.trips, generated.claim, generated.plan.file};
        feed_generated(feeder, made, generated.plan.expected);
        const size_t bytes = made.hall.map.size() + made.plan.size();
        if (bytes < 300 && random.percent(20)) feed_cuts(feeder, made.hall.map, made.plan);
        if (bytes < 200 && random.percent(5)) feed_bits(feeder, made.hall.map, made.plan);
        feed_damaged(feeder, random, made.hall.map, made.plan, other_plan);
        feed_calls(feeder, random);
        other_plan = made.plan;
    }
    feeder.print_spread();
    const std::string missing = feeder.missing();
    if (!missing.empty()) std::printf("did not occur:%s\n", missing.c_str());
    std::printf("%zu differences\n", feeder.reports());
    return feeder.reports() > 0 || !missing.empty() ? 1 : 0;
}
