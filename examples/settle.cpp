// How a C++ program calls the checker: prints what the plan in a folder comes to, as `settle` does. A file that cannot
// be read is told on the error output, and then, as where a file is too long, the status is 1.
#include "../include/settle.h"

#include <cstdio>
#include <fstream>
#include <iterator>
#include <string>
#include <vector>

using Bytes = std::vector<uint8_t>;

static bool read_file(const std::string &name, Bytes &bytes) {
    std::ifstream in(name, std::ios::binary);
    // a folder can be opened, but nothing can be read from it
    in.peek();
    if (!in && !in.eof()) {
        std::fprintf(stderr, "%s cannot be read\n", name.c_str());
        return false;
    }
    bytes.assign(std::istreambuf_iterator<char>(in), std::istreambuf_iterator<char>());
    bytes.reserve(1);  // so that its pointer is never null
    return true;
}

static void print(const uint8_t *out) {
    const unsigned number = out[1] * 256u + out[2];
    const unsigned offset = ((out[4] * 256u + out[5]) * 256u + out[6]) * 256u + out[7];
    const char *words[] = {"refused", "least", "open", "unshown", "othersum"};
    const char *layers[] = {"", "map", "file", "call"};
    if (out[0] == SETTLE_REFUSED) std::printf("refused %s %u %u\n", layers[out[3]], number, offset);
    else std::printf("%s %u\n", words[out[0]], number);
}

int main(int argc, char **argv) {
    if (argc != 2) {
        std::fprintf(stderr, "usage: %s FOLDER, which has floor.map and plan.work\n", argv[0]);
        return 2;
    }
    const std::string folder = argv[1];
    Bytes map, plan;
    if (!read_file(folder + "/floor.map", map) || !read_file(folder + "/plan.work", plan)) return 1;

    uint8_t out[8];
    switch (settle_files(map.data(), map.size(), plan.data(), plan.size(), out, sizeof out)) {
    case SETTLE_DONE: print(out); return 0;
    case SETTLE_BAD_SIZE: std::fprintf(stderr, "a file is longer than 65,536 bytes\n"); return 1;
    default: std::fprintf(stderr, "there is not enough memory\n"); return 1;
    }
}
