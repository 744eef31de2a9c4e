#include "plan_reader.h"

namespace second {
namespace {

// A call's answer, at its command's letter.
void answer(Number number, size_t offset) {
    if (number != taken) throw Fault{Layer::call, number, offset};
}

// Reads `O` and every `C`, opens the check, and goes behind them.
Check read_heading(const Floor &floor, Bytes file, size_t &at) {
    const Command opening = read_opening(file);
    const size_t cart_count = cart_count_of(opening);
    if (cart_count < 1 || cart_count > most_carts) answer(carts, 0);
    std::vector<Trip> trips;
    for (at = opening.behind(); trips.size() < cart_count;) {
        const Command trip = read_trip(file, at);
        trips.push_back(trip_of(trip));
        at = trip.behind();
    }
    answer(judge_opening(floor, trips, claim_of(opening)), 0);
    return Check(floor, trips, claim_of(opening));
}

}  // namespace

Number make_call(Check &check, const Command &call) {
    switch (call.letter) {
    case 'R':
        return check.show(cart_of(call), route_of(call));
    case 'X':
        return check.close();
    default:
        return check.split(call.letter, call.operands);
    }
}

Standing read_plan(const Floor &floor, Bytes file) {
    size_t at = 0;
    Check check = read_heading(floor, file, at);
    Command command = read_call(file, at);
    while (command.letter != 'Z') {
        answer(make_call(check, command), command.offset);
        command = read_call(file, command.behind());
    }
    ask_end(file, command);
    return check.standing();
}

}  // namespace second
