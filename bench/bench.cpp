// Times the proved checker and the second one on the plans of some folders, many times in one process, and prints a
// table of both. Where a folder has a file `expect`, its line has to be what the plan comes to. Arguments: the least
// seconds for each measurement, and the folders.
#include "../include/settle.h"
#include "../tests/second/second.h"

#include <sys/resource.h>

#include <algorithm>
#include <chrono>
#include <cstdio>
#include <cstdlib>
#include <cstring>
#include <filesystem>
#include <fstream>
#include <iterator>
#include <string>
#include <vector>

namespace {

using File = std::vector<uint8_t>;
using Checker = uint32_t (*)(const uint8_t *, size_t, const uint8_t *, size_t, uint8_t *, size_t);

struct Plan {
    std::string name;
    File map;
    File plan;
    std::string expected;  // the line of `settle`, empty if it is not known
};

// A time below this many seconds says nothing: the clock and the caches are a large part of it.
constexpr double least_told = 2e-6;

File read_file(const std::filesystem::path &name) {
    std::ifstream in(name, std::ios::binary);
    File bytes((std::istreambuf_iterator<char>(in)), std::istreambuf_iterator<char>());
    bytes.reserve(1);  // so that its pointer is never null
    return bytes;
}

std::string read_line(const std::filesystem::path &name) {
    std::ifstream in(name);
    std::string line;
    std::getline(in, line);
    return line;
}

// The byte at an offset, 0 if the file ends before it.
size_t byte_at(const File &file, size_t at) { return at < file.size() ? file[at] : 0; }

// How many bytes a command behind the heading takes.
size_t width(const File &plan, size_t at) {
    switch (plan[at]) {
    case 'R': return 5 + 2 * byte_at(plan, at + 2);
    case 'V': return 7;
    case 'E': return 9;
    case 'T': return 4;
    case 'K': return 12;
    default: return 1;
    }
}

// How many closings stand in a plan file.
size_t closings(const File &plan) {
    size_t count = 0;
    for (size_t at = 4 + 5 * byte_at(plan, 3); at < plan.size(); at += width(plan, at)) count += plan[at] == 'X';
    return count;
}

// The line that `settle` prints for an outcome.
std::string line_of(const uint8_t out[8]) {
    static const char *words[] = {"refused", "least", "open", "unshown", "othersum"};
    static const char *layers[] = {"", "map", "file", "call"};
    const std::string number = std::to_string(out[1] * 256 + out[2]);
    const unsigned offset = ((out[4] * 256u + out[5]) * 256u + out[6]) * 256u + out[7];
    if (out[0] == SETTLE_REFUSED) return std::string("refused ") + layers[out[3]] + " " + number + " " + std::to_string(offset);
    return words[out[0]] + (" " + number);
}

// The seconds that one check takes: the least of three measurements, each of them many checks long enough.
double seconds(Checker checker, const Plan &p, double least, uint8_t out[8]) {
    using Clock = std::chrono::steady_clock;
    double best = 1e9;
    for (int round = 0; round < 3; ++round) {
        size_t times = 0;
        double passed = 0;
        const auto start = Clock::now();
        while (passed < least) {
            checker(p.map.data(), p.map.size(), p.plan.data(), p.plan.size(), out, 8);
            ++times;
            passed = std::chrono::duration<double>(Clock::now() - start).count();
        }
        best = std::min(best, passed / static_cast<double>(times));
    }
    return best;
}

std::string decimal(double number, int decimals) {
    char text[64];
    std::snprintf(text, sizeof text, "%.*f", decimals, number);
    return text;
}

std::string milliseconds(double time) { return time < least_told ? "under 0.002" : decimal(1e3 * time, 3); }

// Prints the plan's row; false if the checkers differ, or the plan comes to another line than expected.
bool measure(const Plan &p, double least) {
    uint8_t proved_out[8] = {}, plain_out[8] = {};
    const double proved = seconds(settle_files, p, least, proved_out);
    const double plain = seconds(second_opinion, p, least, plain_out);
    const size_t count = closings(p.plan);
    const bool told = std::min(proved, plain) >= least_told;
    const std::string ratio = told ? decimal(proved / plain, 2) : "–";
    // a plan that is refused does not come to all its closings
    const bool rated = told && proved_out[0] != SETTLE_REFUSED;
    const std::string rate = rated ? decimal(static_cast<double>(count) / proved, 0) : "–";
    std::printf("| %s | %zu | %zu | %s | %s | %s | %s |\n", p.name.c_str(), p.plan.size(), count,
                milliseconds(proved).c_str(), milliseconds(plain).c_str(), ratio.c_str(), rate.c_str());
    std::fflush(stdout);
    if (std::memcmp(proved_out, plain_out, 8) != 0) {
        std::fprintf(stderr, "%s: the checkers differ\n", p.name.c_str());
        return false;
    }
    const std::string line = line_of(proved_out);
    if (p.expected.empty() || p.expected == line) return true;
    std::fprintf(stderr, "%s: %s in place of %s\n", p.name.c_str(), line.c_str(), p.expected.c_str());
    return false;
}

}  // namespace

int main(int argc, char **argv) {
    if (argc < 3) {
        std::fputs("usage: bench SECONDS FOLDER..\n", stderr);
        return 2;
    }
    std::puts("| plan | bytes | closings | proved ms | plain ms | ratio | closings per second |\n|---|---|---|---|---|---|---|");
    bool right = true;
    for (int i = 2; i < argc; ++i) {
        const std::filesystem::path folder = argv[i];
        const std::string name = folder.filename().empty() ? folder.parent_path().filename() : folder.filename();
        const Plan plan{name, read_file(folder / "floor.map"), read_file(folder / "plan.work"), read_line(folder / "expect")};
        right = measure(plan, std::atof(argv[1])) && right;
    }
    rusage usage{};
    getrusage(RUSAGE_SELF, &usage);
    std::printf("peak memory of the process: %ld KiB\n", usage.ru_maxrss);
    return right ? 0 : 1;
}
