// A refusal with its reason, and the words of docs/REFUSALS.md.
#pragma once

#include "../second/refusals.h"
#include "text.h"

#include <optional>

namespace tell {

using second::Number;

struct Refusal {
    Number number;
    std::string reason;
};

// The first reason against a call, if there is one.
using Answer = std::optional<Refusal>;

// The refusal's word.
const char *word(Number number);

// The answer as it is printed, without its line end. The reasons are worked out apart from the
// check's own tests, so it throws std::logic_error if the number is another than the check's.
std::string answer_text(const Answer &answer, Number number);

}  // namespace tell
