// A ban, told by what it asks.
#pragma once

#include "../second/bans.h"

#include <string>

namespace tell {

std::string ban_text(const second::Ban &ban);

}  // namespace tell
