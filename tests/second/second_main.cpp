// Prints the line that `settle` prints for the folder given as argument.
#include "files.h"
#include "second.h"

#include <cstdio>

namespace {

void print_outcome(const uint8_t out[8]) {
    const char *words[] = {"refused", "least", "open", "unshown", "othersum"};
    const char *layers[] = {"", "map", "file", "call"};
    const unsigned number = out[1] * 256u + out[2];
    const unsigned offset = ((out[4] * 256u + out[5]) * 256u + out[6]) * 256u + out[7];
    if (out[0] == 0) std::printf("refused %s %u %u\n", layers[out[3]], number, offset);
    else std::printf("%s %u\n", words[out[0]], number);
}

}  // namespace

int main(int argc, char **argv) {
    if (argc != 2) {
        std::fprintf(stderr, "usage: second FOLDER\n");
        return 2;
    }
    const std::string folder = argv[1];
    const std::optional<second::File> map = second::read_file(folder + "/floor.map");
    const std::optional<second::File> plan = second::read_file(folder + "/plan.work");
    uint8_t out[8];
    if (!map || !plan ||
        second_opinion(map->data(), map->size(), plan->data(), plan->size(), out, sizeof out) != 0) {
        std::puts("unread");
        return 0;
    }
    print_outcome(out);
    return 0;
}
