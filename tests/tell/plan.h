// A plan, told step by step up to its first fault.
#pragma once

#include "../second/bans.h"
#include "../second/bytes.h"

#include <ostream>

namespace tell {

void tell_plan(std::ostream &out, const second::Floor &floor, second::Bytes plan);

}  // namespace tell
