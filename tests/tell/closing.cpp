#include "closing.h"

#include "../second/search.h"

namespace tell {
namespace {

using second::Check;

// The least lengths of all carts, by cart, as far as they are below the claim.
using Lengths = std::vector<std::optional<second::Tick>>;

Lengths search_lengths(const Check &check) {
    Lengths lengths;
    for (unsigned cart = 0; cart < check.trips().size(); ++cart)
        lengths.push_back(second::least_length(check.floor(), check.trips(), check.current(), cart, check.claim()));
    return lengths;
}

// What they sum to, if each cart has one.
std::optional<unsigned> sum_of(const Lengths &lengths) {
    unsigned sum = 0;
    for (const auto &length : lengths) {
        if (!length) return std::nullopt;
        sum += *length;
    }
    return sum;
}

// "cart 0: 3, cart 1: none below 6".
std::string listed(const Lengths &lengths, unsigned claim) {
    std::string text;
    for (size_t cart = 0; cart < lengths.size(); ++cart) {
        text += (cart == 0 ? "cart " : ", cart ") + str(cart) + ": ";
        text += lengths[cart] ? str(*lengths[cart]) : "none below " + str(claim);
    }
    return text;
}

}  // namespace

Closing work_out_closing(const Check &check) {
    if (check.open_branches() == 0) return {"", Refusal{second::nothing_open, "no branch is open"}};
    const Lengths lengths = search_lengths(check);
    const std::optional<unsigned> sum = sum_of(lengths);
    const std::string text = "least lengths: " + listed(lengths, check.claim()) + "; ";
    const std::string claim = "the claim is " + str(check.claim());
    if (!sum) return {text + claim, std::nullopt};
    Closing closing{text + "their sum is " + str(*sum) + ", and " + claim, std::nullopt};
    if (*sum < check.claim())
        closing.answer = Refusal{second::cheaper_set, "a set that keeps the bans sums to " + str(*sum)};
    return closing;
}

}  // namespace tell
