// Plan files for random floors, and how they settle.
#pragma once

#include "solver.h"

namespace generate {

struct Outcome {
    int verdict;  // 1 least, 2 open, 3 unshown, 4 othersum
    int number;
};

struct Plan {
    File file;
    Outcome expected;
};

struct Wish {
    int claim = 0;           // what the plan claims
    int most_splits = 1 << 20;  // the tree ends unfinished behind so many
    int most_closings = 1 << 20;
    bool close_early = false;  // close a branch as soon as its cost allows it
    std::vector<bool> show;    // by cart, whether its route is written
};

// Writes the plan. Its tree ends, unfinished, where a branch of less cost than the claim has no sides.
Plan write_plan(Random &random, const Problem &problem, const Tree &tree, const Wish &wish);

// A wish for a solved or unsolved tree, by chance.
Wish random_wish(Random &random, const Problem &problem, const Tree &tree);

// A wish for all that the tree shows, with the greatest claim that it allows.
Wish full_wish(const Problem &problem, const Tree &tree);

struct Made {
    Hall hall;
    std::vector<Trip> trips;
    int claim;
    Plan plan;
};

// A random floor with carts and a plan for them.
Made make(Random &random);

}  // namespace generate
