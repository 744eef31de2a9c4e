// Damaged files.
#pragma once

#include "../generate/hall.h"

namespace differential {

using generate::File;

// The file with one damage by chance: a bit, a byte, bytes removed, inserted, repeated or cut off.
File damaged(Random &random, const File &file);

// The front of the one file, and the rear of the other behind it.
File spliced(Random &random, const File &one, const File &other);

}  // namespace differential
