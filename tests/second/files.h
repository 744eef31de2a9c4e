// Reads the two files of a folder, for the programs.
#pragma once

#include "bytes.h"

#include <filesystem>
#include <fstream>
#include <iterator>
#include <optional>
#include <string>
#include <vector>

namespace second {

constexpr size_t most_bytes = 65536;

using File = std::vector<uint8_t>;

// The file's bytes, if it can be read and is not too long.
inline std::optional<File> read_file(const std::string &name) {
    if (!std::filesystem::is_regular_file(name)) return std::nullopt;
    std::ifstream in(name, std::ios::binary);
    const File file{std::istreambuf_iterator<char>(in), std::istreambuf_iterator<char>()};
    if (!in || file.size() > most_bytes) return std::nullopt;
    return file;
}

}  // namespace second
