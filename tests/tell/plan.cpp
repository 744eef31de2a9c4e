#include "plan.h"

#include "calls.h"
#include "opening.h"
#include "outcome.h"
#include "refusal.h"

namespace tell {
namespace {

using second::Fault;
using second::Layer;

void tell_end(std::ostream &out, const std::string &line, const std::string &meaning) {
    out << "settle prints: " << line << "\n" << meaning << "\n";
}

// A refused call is told where its command is.
void tell_fault(std::ostream &out, const Fault &fault) {
    if (fault.layer == Layer::file)
        out << "  " << fault.offset << ": refused " << fault.number << " (" << word(fault.number) << ")\n";
    tell_end(out, fault_text(fault), "So the plan shows nothing.");
}

}  // namespace

void tell_plan(std::ostream &out, const second::Floor &floor, second::Bytes plan) {
    out << "plan.work:\n";
    try {
        size_t at = 0;
        second::Check check = tell_opening(out, floor, plan, at);
        tell_calls(out, plan, at, check);
        tell_end(out, standing_text(check.standing()), meaning(check.standing(), check.claim()));
    } catch (const Fault &fault) {
        tell_fault(out, fault);
    }
}

}  // namespace tell
