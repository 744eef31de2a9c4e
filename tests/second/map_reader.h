// Reads a map file in either layout.
#pragma once

#include "bytes.h"
#include "floor.h"

namespace second {

// Throws the file's first fault, of the layer map.
Floor read_map(Bytes file);

}  // namespace second
