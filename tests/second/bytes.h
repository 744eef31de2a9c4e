// A file's bytes, and the numbers in them.
#pragma once

#include <cstddef>
#include <cstdint>

namespace second {

struct Bytes {
    const uint8_t *data;
    size_t length;

    uint8_t operator[](size_t offset) const { return data[offset]; }

    // The two bytes from the offset on, the most significant one first.
    unsigned two(size_t offset) const { return data[offset] * 256u + data[offset + 1]; }

    // How many bytes there are from the offset on; the offset is within the file or at its end.
    size_t left(size_t offset) const { return length - offset; }
};

}  // namespace second
