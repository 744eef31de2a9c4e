#include "opening.h"

#include "../second/commands.h"
#include "opening_reasons.h"
#include "standing.h"

namespace tell {
namespace {

using second::Check;
using second::Command;
using second::Trip;

[[noreturn]] void refuse(Number number) { throw second::Fault{second::Layer::call, number, 0}; }

void tell_cart(std::ostream &out, size_t cart, const Command &command) {
    const Trip trip = second::trip_of(command);
    out << "      " << command.offset << ": cart " << cart << " from " << trip.start << " to " << trip.target << "\n";
}

std::vector<Trip> tell_carts(std::ostream &out, second::Bytes plan, size_t &at, size_t carts) {
    std::vector<Trip> trips;
    while (trips.size() < carts) {
        const Command command = second::read_trip(plan, at);
        tell_cart(out, trips.size(), command);
        trips.push_back(second::trip_of(command));
        at = command.behind();
    }
    return trips;
}

}  // namespace

Check tell_opening(std::ostream &out, const second::Floor &floor, second::Bytes plan, size_t &at) {
    const Command command = second::read_opening(plan);
    const unsigned claim = second::claim_of(command);
    const size_t carts = second::cart_count_of(command);
    out << "  0: open with claim " << claim << " and " << carts << " carts\n";
    if (const Answer count = cart_count_answer(carts)) {
        out << "    " << answer_text(count, second::carts) << "\n";
        refuse(second::carts);
    }
    at = command.behind();
    const std::vector<Trip> trips = tell_carts(out, plan, at, carts);
    const Number number = second::judge_opening(floor, trips, claim);
    out << "    " << answer_text(opening_answer(floor, trips, claim), number) << "\n";
    if (number != second::taken) {
        tell_barred(out, number);
        refuse(number);
    }
    const Check check(floor, trips, claim);
    tell_standing(out, check);
    return check;
}

std::vector<Trip> trips_of_heading(second::Bytes plan) {
    try {
        const Command command = second::read_opening(plan);
        const size_t carts = second::cart_count_of(command);
        size_t at = command.behind();
        std::ostream nowhere(nullptr);
        if (!cart_count_answer(carts)) return tell_carts(nowhere, plan, at, carts);
    } catch (const second::Fault &) {
    }
    return {};
}

}  // namespace tell
