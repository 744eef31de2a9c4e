// Why a split is refused.
#pragma once

#include "../second/check.h"
#include "refusal.h"
#include "split.h"

namespace tell {

Answer split_answer(const second::Check &check, const Split &split);

}  // namespace tell
