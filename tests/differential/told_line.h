// What tell says of two files, to be compared with the checkers.
#pragma once

#include "../generate/hall.h"

namespace differential {

// The line of `settle` in the text of tell, or what tell stops with.
std::string told_line(const generate::File &map, const generate::File &plan);

}  // namespace differential
