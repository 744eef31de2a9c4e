// Why a route is not shown.
#pragma once

#include "../second/check.h"
#include "refusal.h"

namespace tell {

Answer show_answer(const second::Check &check, unsigned cart, const second::Route &route);

}  // namespace tell
