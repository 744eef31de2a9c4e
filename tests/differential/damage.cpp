#include "damage.h"

#include <algorithm>

namespace differential {
namespace {

using Offset = std::ptrdiff_t;

void change_byte(Random &random, File &file) {
    uint8_t &byte = file[random.below(file.size())];
    switch (random.below(4)) {
    case 0:
        byte = static_cast<uint8_t>(byte ^ 1u << random.below(8));
        break;
    case 1:
        byte = static_cast<uint8_t>(random.next());
        break;
    case 2:
        ++byte;
        break;
    default:
        --byte;
        break;
    }
}

void remove_bytes(Random &random, File &file) {
    const size_t at = random.below(file.size());
    const size_t bytes = std::min(file.size() - at, size_t{1} + random.below(8));
    file.erase(file.begin() + static_cast<Offset>(at), file.begin() + static_cast<Offset>(at + bytes));
}

// Letters are likelier than other bytes, since they begin commands.
uint8_t likely_byte(Random &random) {
    static const char letters[] = "PWOCRVETKXZ.@G\n0123456789";
    if (random.percent(40)) return static_cast<uint8_t>(random.next());
    return static_cast<uint8_t>(letters[random.below(sizeof letters - 1)]);
}

void insert_bytes(Random &random, File &file) {
    const size_t at = random.below(file.size() + 1);
    const size_t bytes = size_t{1} + random.below(random.percent(50) ? 1 : 8);
    for (size_t i = 0; i < bytes; ++i)
        file.insert(file.begin() + static_cast<Offset>(at), likely_byte(random));
}

// Bytes of the file once more, at another place.
void repeat_bytes(Random &random, File &file) {
    const size_t from = random.below(file.size());
    const size_t bytes = std::min(file.size() - from, size_t{1} + random.below(12));
    const File part(file.begin() + static_cast<Offset>(from), file.begin() + static_cast<Offset>(from + bytes));
    file.insert(file.begin() + static_cast<Offset>(random.below(file.size() + 1)), part.begin(), part.end());
}

}  // namespace

File damaged(Random &random, const File &file) {
    File other = file;
    if (other.empty()) insert_bytes(random, other);
    switch (random.below(10)) {
    case 0:
        remove_bytes(random, other);
        break;
    case 1:
        insert_bytes(random, other);
        break;
    case 2:
        repeat_bytes(random, other);
        break;
    case 3:
        other.resize(random.below(other.size()));
        break;
    default:
        change_byte(random, other);
        break;
    }
    return other;
}

File spliced(Random &random, const File &one, const File &other) {
    File both(one.begin(), one.begin() + static_cast<Offset>(random.below(one.size() + 1)));
    both.insert(both.end(), other.begin() + static_cast<Offset>(random.below(other.size() + 1)), other.end());
    return both;
}

}  // namespace differential
