#include "refusal.h"

#include <stdexcept>

namespace tell {
namespace {

const char *const words[] = {
    "taken",     "headless", "gauge",  "ragged",  "strange sign", "count",   "no place",     "twice",
    "crowded",   "carts",    "shared", "claim",   "no cart",      "shown",   "route",        "conflict",
    "nothing open", "full",  "tick",   "unlawful", "cheaper",     "letter",  "cut short",    "trailing",
};

}  // namespace

const char *word(Number number) { return words[number]; }

std::string answer_text(const Answer &answer, Number number) {
    if ((answer ? answer->number : second::taken) != number)
        throw std::logic_error("the reasons come to another answer than the check");
    if (!answer) return "taken";
    return "refused " + str(number) + " (" + word(number) + "): " + answer->reason;
}

}  // namespace tell
