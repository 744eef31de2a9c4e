// Reads a plan file and makes its calls on a check.
#pragma once

#include "check.h"
#include "commands.h"

namespace second {

// Makes the call of a command behind the heading that is not `Z`.
Number make_call(Check &check, const Command &call);

// How the plan settles on the floor. Throws the file's first fault, of the layer file or call.
Standing read_plan(const Floor &floor, Bytes file);

}  // namespace second
