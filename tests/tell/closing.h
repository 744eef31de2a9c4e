// A closing: the least lengths under the bans of the branch, and why it is refused.
#pragma once

#include "../second/check.h"
#include "refusal.h"

namespace tell {

struct Closing {
    std::string lengths;  // the line of the least lengths; empty if no branch is open
    Answer answer;
};

Closing work_out_closing(const second::Check &check);

}  // namespace tell
