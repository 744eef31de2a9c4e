#include "tell.h"

#include "../second/map_reader.h"
#include "hall.h"
#include "opening.h"
#include "outcome.h"
#include "plan.h"
#include "refusal.h"

namespace tell {

void tell(std::ostream &out, second::Bytes map, second::Bytes plan) {
    second::Floor floor;
    try {
        floor = second::read_map(map);
    } catch (const second::Fault &fault) {
        out << fault_text(fault) << " (" << word(fault.number) << ")\n";
        return;
    }
    tell_hall(out, floor, map, trips_of_heading(plan));
    tell_plan(out, floor, plan);
}

}  // namespace tell
