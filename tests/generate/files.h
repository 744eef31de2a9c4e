// Whole files, read and written.
#pragma once

#include "hall.h"

#include <cstdio>
#include <cstdlib>
#include <filesystem>
#include <fstream>
#include <iterator>

namespace generate {

[[noreturn]] inline void give_up(const char *what, const std::filesystem::path &name) {
    std::fprintf(stderr, "cannot %s %s\n", what, name.c_str());
    std::exit(2);
}

inline File read_file(const std::filesystem::path &name) {
    std::ifstream in(name, std::ios::binary);
    if (!in) give_up("read", name);
    return File(std::istreambuf_iterator<char>(in), std::istreambuf_iterator<char>());
}

inline void write_file(const std::filesystem::path &name, const File &file) {
    std::ofstream out(name, std::ios::binary);
    out.write(reinterpret_cast<const char *>(file.data()), static_cast<std::streamsize>(file.size()));
    if (!out.flush()) give_up("write", name);
}

}  // namespace generate
