#include "outcome.h"

#include "text.h"

namespace tell {
namespace {

using second::Standing;
using second::Verdict;

}  // namespace

std::string standing_text(const Standing &standing) {
    static const char *const words[] = {"", "least ", "open ", "unshown ", "othersum "};
    return words[static_cast<size_t>(standing.verdict)] + str(standing.number);
}

std::string fault_text(const second::Fault &fault) {
    static const char *const layers[] = {"", "map ", "file ", "call "};
    return std::string("refused ") + layers[static_cast<size_t>(fault.layer)] + str(fault.number) + " " +
           str(fault.offset);
}

std::string meaning(const Standing &standing, unsigned claim) {
    if (standing.verdict == Verdict::open)
        return "So nothing is shown of the claim " + str(claim) + " yet: a branch is open.";
    const std::string none =
        "So no conflict-free set of routes for these carts on this floor sums to less than " + str(claim);
    switch (standing.verdict) {
    case Verdict::least:
        return none + ", and the routes shown sum to " + str(claim) + ".";
    case Verdict::othersum:
        return none + "; the routes shown are free of conflict and sum to " + str(standing.number) + ".";
    default:
        return none + "; whether one sums to " + str(claim) + " is not shown.";
    }
}

}  // namespace tell
