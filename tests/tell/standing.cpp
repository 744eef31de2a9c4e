#include "standing.h"

#include "outcome.h"

namespace tell {

void tell_standing(std::ostream &out, const second::Check &check) {
    out << "    standing: " << standing_text(check.standing()) << " (open branches " << check.open_branches()
        << ", splits " << check.splits() << ", closings " << check.closings() << ")\n";
}

void tell_barred(std::ostream &out, second::Number number) {
    out << "    standing: barred " << number << " (open branches 1, splits 0, closings 0)\n";
}

}  // namespace tell
