// The commands of a plan file: the letter of each, and its operands once it is whole.
#pragma once

#include "bytes.h"
#include "routes.h"

namespace second {

struct Command {
    size_t offset;
    uint8_t letter;
    Bytes operands;

    // Where the next command is due.
    size_t behind() const { return offset + 1 + operands.length; }
};

// Each reads the command that is due at the offset, and throws the fault, of the layer file, if
// another letter stands there or the operands are cut short.
Command read_opening(Bytes file);          // `O`
Command read_trip(Bytes file, size_t at);  // `C`
Command read_call(Bytes file, size_t at);  // `R`, a split, `X` or `Z`

// Asks that nothing stands behind the `Z`.
void ask_end(Bytes file, const Command &settling);

// What the operands say.
unsigned claim_of(const Command &opening);
size_t cart_count_of(const Command &opening);
Trip trip_of(const Command &trip);
unsigned cart_of(const Command &show);
Route route_of(const Command &show);

}  // namespace second
