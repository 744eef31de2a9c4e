// Which of the four conditions on ticks of a split of letter `K` is not so.
#pragma once

#include "../second/corridor.h"
#include "corridor_reasons.h"

namespace tell {

Reason passing_reason(const second::Check &check, const Split &split, const second::Corridor &corridor);

}  // namespace tell
