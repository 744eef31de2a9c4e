#include "calls.h"

#include "../second/plan_reader.h"
#include "../second/splits.h"
#include "ban.h"
#include "closing.h"
#include "route_reasons.h"
#include "split_reasons.h"
#include "standing.h"

namespace tell {
namespace {

using second::Check;
using second::Command;

// Makes the call, and tells its answer.
Number answer(std::ostream &out, Check &check, const Command &call, const Answer &expected) {
    const Number number = second::make_call(check, call);
    out << "    " << answer_text(expected, number) << "\n";
    return number;
}

std::string listed(const second::Route &route) {
    std::string text;
    for (second::Place place : route) text += " " + str(place);
    return text;
}

Number tell_route(std::ostream &out, Check &check, const Command &call) {
    const unsigned cart = second::cart_of(call);
    const second::Route route = second::route_of(call);
    out << "route of cart " << cart << ":" << listed(route) << "\n";
    return answer(out, check, call, show_answer(check, cart, route));
}

// The sides are worked out under the bans that the branch has before it is split.
Number tell_split(std::ostream &out, Check &check, const Command &call) {
    const Split split = split_of(call);
    out << split_text(split) << "\n";
    const Answer expected = split_answer(check, split);
    second::Sides sides;
    if (!expected)
        second::split_sides(check.floor(), check.trips(), check.current(), call.letter, call.operands, sides);
    const Number number = answer(out, check, call, expected);
    if (number == second::taken)
        out << "    left: " << ban_text(sides.left) << "\n    right: " << ban_text(sides.right) << "\n";
    return number;
}

Number tell_closing(std::ostream &out, Check &check, const Command &call) {
    const Closing closing = work_out_closing(check);
    out << "close\n";
    if (!closing.lengths.empty()) out << "    " << closing.lengths << "\n";
    return answer(out, check, call, closing.answer);
}

// A command that is not `Z`. Throws if it is refused.
void tell_call(std::ostream &out, Check &check, const Command &call) {
    out << "  " << call.offset << ": ";
    const auto tell = call.letter == 'R' ? tell_route : call.letter == 'X' ? tell_closing : tell_split;
    const Number number = tell(out, check, call);
    tell_standing(out, check);
    if (number != second::taken) throw second::Fault{second::Layer::call, number, call.offset};
}

}  // namespace

void tell_calls(std::ostream &out, second::Bytes plan, size_t at, Check &check) {
    Command command = second::read_call(plan, at);
    while (command.letter != 'Z') {
        tell_call(out, check, command);
        command = second::read_call(plan, command.behind());
    }
    second::ask_end(plan, command);
    out << "  " << command.offset << ": settle\n";
    tell_standing(out, check);
}

}  // namespace tell
