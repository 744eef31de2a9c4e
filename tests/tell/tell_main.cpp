// Prints what `account` has to print for the folder given as argument.
#include "../second/files.h"
#include "tell.h"

#include <iostream>

int main(int argc, char **argv) {
    if (argc != 2) {
        std::cerr << "usage: tell FOLDER\n";
        return 2;
    }
    const std::string folder = argv[1];
    const std::optional<second::File> map = second::read_file(folder + "/floor.map");
    const std::optional<second::File> plan = second::read_file(folder + "/plan.work");
    if (!map || !plan) std::cout << "unread\n";
    else tell::tell(std::cout, {map->data(), map->size()}, {plan->data(), plan->size()});
    return 0;
}
