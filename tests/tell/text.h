// Numbers as text.
#pragma once

#include <string>

namespace tell {

inline std::string str(unsigned long number) { return std::to_string(number); }

}  // namespace tell
