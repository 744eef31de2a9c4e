#include "commands.h"

#include "refusals.h"
#include "splits.h"

namespace second {
namespace {

[[noreturn]] void refuse(Number number, size_t offset) { throw Fault{Layer::file, number, offset}; }

// The letter at the offset; there has to be one.
uint8_t read_letter(Bytes file, size_t at) {
    if (at == file.length) refuse(cut_short, file.length);
    return file[at];
}

// The command at the offset; its operands have to be there.
Command whole(Bytes file, size_t at, size_t operands) {
    if (file.left(at) < 1 + operands) refuse(cut_short, file.length);
    return {at, file[at], Bytes{file.data + at + 1, operands}};
}

// The command of this letter, which alone is due.
Command read_due(Bytes file, size_t at, uint8_t letter, size_t operands) {
    if (read_letter(file, at) != letter) refuse(bad_letter, at);
    return whole(file, at, operands);
}

// An `R` has one place more than steps.
Command read_show(Bytes file, size_t at) {
    const size_t steps = whole(file, at, 2).operands[1];
    return whole(file, at, 2 + 2 * (steps + 1));
}

}  // namespace

Command read_opening(Bytes file) { return read_due(file, 0, 'O', 3); }

Command read_trip(Bytes file, size_t at) { return read_due(file, at, 'C', 4); }

Command read_call(Bytes file, size_t at) {
    const uint8_t letter = read_letter(file, at);
    if (letter == 'R') return read_show(file, at);
    if (letter == 'X' || letter == 'Z') return whole(file, at, 0);
    const size_t operands = operand_bytes(letter);
    if (operands == 0) refuse(bad_letter, at);
    return whole(file, at, operands);
}

void ask_end(Bytes file, const Command &settling) {
    if (settling.behind() != file.length) refuse(bytes_behind, settling.behind());
}

unsigned claim_of(const Command &opening) { return opening.operands.two(0); }

size_t cart_count_of(const Command &opening) { return opening.operands[2]; }

Trip trip_of(const Command &trip) { return {trip.operands.two(0), trip.operands.two(2)}; }

unsigned cart_of(const Command &show) { return show.operands[0]; }

Route route_of(const Command &show) {
    Route route;
    for (size_t at = 2; at < show.operands.length; at += 2) route.push_back(show.operands.two(at));
    return route;
}

}  // namespace second
