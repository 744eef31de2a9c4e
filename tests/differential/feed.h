// Feeds both checkers and compares what they write.
#pragma once

#include "../generate/hall.h"

#include <map>
#include <string>

namespace differential {

using generate::File;

class Feeder {
public:
    // Files that make a difference are written into folders within this one.
    explicit Feeder(std::string folder) : folder(std::move(folder)) {}

    // Feeds the two files, and answers the line that `settle` prints, or `unread`.
    std::string feed(const File &map, const File &plan);

    // Reports files of which another line was expected.
    void report(const std::string &what, const File &map, const File &plan);

    // Counts something else than an outcome, to be printed with them.
    void count(const std::string &what) { ++spread[what]; }

    // How often each outcome came, and how many files were fed.
    void print_spread() const;

    size_t files() const { return fed; }
    size_t reports() const { return reported; }

    // The names of outcomes that are to occur and did not.
    std::string missing() const;

private:
    void compare(const File &map, const File &plan, size_t out_len);

    // Compares the line of settle that tell tells with that of the last comparison.
    void compare_told(const File &map, const File &plan);

    std::string folder;
    std::map<std::string, size_t> spread;
    std::string line;  // of the last comparison
    size_t fed = 0;
    size_t reported = 0;
};

}  // namespace differential
