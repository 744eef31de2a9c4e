// Plans of calls by chance, most of which are lawful for themselves.
#pragma once

#include "case.h"

namespace differential {

// A small hall, and a plan whose bans, closings and routes have to do with one another.
Case random_calls(Random &random);

// A list map of connections by chance, of which some may be refused, and a plan of a cart at rest.
struct Joins {
    File map;
    File plan;
};

Joins random_joins(Random &random);

}  // namespace differential
