#include "split.h"

#include "text.h"

namespace tell {
namespace {

// "cart 0", or "carts 0 and 1".
std::string named(const std::string &what, const std::vector<unsigned> &numbers) {
    if (numbers.size() == 1) return what + " " + str(numbers[0]);
    return what + "s " + str(numbers[0]) + " and " + str(numbers[1]);
}

}  // namespace

Split split_of(const second::Command &command) {
    const second::Bytes &given = command.operands;
    switch (command.letter) {
    case 'V':
        return {'V', {given[0], given[1]}, {given.two(2)}, 0, {given.two(4)}};
    case 'E':
        return {'E', {given[0], given[1]}, {given.two(2), given.two(4)}, 0, {given.two(6)}};
    case 'T':
        return {'T', {given[0]}, {}, 0, {given.two(1)}};
    default:
        return {'K', {given[0], given[1]}, {given.two(2), given.two(4)}, given[6], {given.two(7), given.two(9)}};
    }
}

std::string split_text(const Split &split) {
    std::string text = std::string("split ") + static_cast<char>(split.letter) + ": " + named("cart", split.carts);
    if (!split.places.empty()) text += ", " + named("place", split.places);
    if (split.letter == 'K') text += ", length " + str(split.length);
    return text + ", " + named("tick", split.ticks);
}

}  // namespace tell
