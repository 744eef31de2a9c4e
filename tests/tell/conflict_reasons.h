// Where a route conflicts with one that is shown.
#pragma once

#include "../second/routes.h"

#include <optional>
#include <string>

namespace tell {

// How the two meet first, if they do; the one is to be shown, the other is.
std::optional<std::string> conflict_reason(const second::Route &one, const second::Route &other);

}  // namespace tell
