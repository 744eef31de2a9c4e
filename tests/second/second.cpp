#include "second.h"

#include "map_reader.h"
#include "plan_reader.h"

namespace second {
namespace {

constexpr size_t most_bytes = 65536;
constexpr size_t outcome_bytes = 8;
constexpr uint32_t done = 0;
constexpr uint32_t bad_size = 24;

// Puts the number into the bytes, the most significant one first.
void put(uint8_t *out, size_t bytes, size_t number) {
    for (size_t i = bytes; i-- > 0; number >>= 8) out[i] = static_cast<uint8_t>(number & 0xff);
}

void write_refusal(uint8_t *out, const Fault &fault) {
    out[0] = 0;
    put(out + 1, 2, fault.number);
    out[3] = static_cast<uint8_t>(fault.layer);
    put(out + 4, 4, fault.offset);
}

void write_standing(uint8_t *out, const Standing &standing) {
    out[0] = static_cast<uint8_t>(standing.verdict);
    put(out + 1, 2, standing.number);
    out[3] = 0;
    put(out + 4, 4, 0);
}

}  // namespace
}  // namespace second

uint32_t second_opinion(const uint8_t *map, size_t map_len,
                        const uint8_t *plan, size_t plan_len,
                        uint8_t *out, size_t out_len) {
    using namespace second;
    if (out_len < outcome_bytes || map_len > most_bytes || plan_len > most_bytes) return bad_size;
    try {
        const Floor floor = read_map(Bytes{map, map_len});
        write_standing(out, read_plan(floor, Bytes{plan, plan_len}));
    } catch (const Fault &fault) {
        write_refusal(out, fault);
    }
    return done;
}
