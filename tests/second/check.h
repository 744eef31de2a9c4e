// The check: its opening, the calls on it, and how it stands.
#pragma once

#include "bytes.h"
#include "refusals.h"
#include "routes.h"

namespace second {

constexpr size_t most_carts = 16;
constexpr unsigned most_claim = 4000;
constexpr size_t most_splits_on_a_branch = 64;
constexpr size_t most_splits = 1000000;

// The opening's tests.
Number judge_opening(const Floor &floor, const std::vector<Trip> &trips, unsigned claim);

enum class Verdict : uint8_t { least = 1, open = 2, unshown = 3, othersum = 4 };

struct Standing {
    Verdict verdict;
    unsigned number;
};

class Check {
public:
    // The bans of a branch, one for each split that it lies under.
    using Branch = std::vector<Ban>;

    // Opens a check whose opening passes its tests.
    Check(const Floor &floor, std::vector<Trip> trips, unsigned claim);

    // The calls. With `taken` they are done; with another number nothing is changed.
    Number show(unsigned cart, const Route &route);
    Number split(uint8_t letter, Bytes operands);
    Number close();

    Standing standing() const;

    // What the check was opened with, and what the calls came to.
    const Floor &floor() const { return floor_; }
    const std::vector<Trip> &trips() const { return trips_; }
    unsigned claim() const { return claim_; }
    size_t open_branches() const { return open.size(); }
    const Branch &current() const { return open.back(); }  // if a branch is open
    const Route &route(unsigned cart) const { return routes[cart]; }
    const std::vector<unsigned> &shown() const { return carts_shown; }
    size_t splits() const { return splits_taken; }
    size_t closings() const { return closings_taken; }

private:
    const Floor &floor_;
    const std::vector<Trip> trips_;
    const unsigned claim_;
    std::vector<Branch> open;           // the first branch, which is the current one, stands last
    std::vector<Route> routes;          // by cart; empty if not shown
    std::vector<unsigned> carts_shown;  // in the order of their shows
    size_t splits_taken = 0;
    size_t closings_taken = 0;
};

}  // namespace second
