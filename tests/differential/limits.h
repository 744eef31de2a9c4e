// Files at every limit of the formats and rules, each with the line expected of it.
#pragma once

#include "builder.h"

namespace differential {

struct Limit {
    std::string name;
    File map;
    File plan;
    std::string line;
};

std::vector<Limit> map_limits();
std::vector<Limit> opening_limits();
std::vector<Limit> route_limits();
std::vector<Limit> split_limits();
std::vector<Limit> corridor_limits();
std::vector<Limit> file_limits();

}  // namespace differential
