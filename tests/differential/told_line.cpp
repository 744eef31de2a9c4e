#include "told_line.h"

#include "../tell/tell.h"

#include <sstream>
#include <stdexcept>

namespace differential {

using generate::File;

std::string told_line(const File &map, const File &plan) {
    std::ostringstream out;
    try {
        tell::tell(out, {map.data(), map.size()}, {plan.data(), plan.size()});
    } catch (const std::logic_error &error) {
        return error.what();
    }
    const std::string text = out.str();
    const std::string before = "settle prints: ";
    const size_t at = text.find(before);
    // The one line of a map that is refused has the word behind it.
    if (at == std::string::npos) return text.substr(0, text.find(" ("));
    const size_t line = at + before.size();
    return text.substr(line, text.find('\n', line) - line);
}

}  // namespace differential
