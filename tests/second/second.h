// A second checker of plans, written from docs/ alone, to be compared with the proved one.
#pragma once

#include <cstddef>
#include <cstdint>

// Means what docs/FORMATS.md says of `settle_files`, but never returns 1.
uint32_t second_opinion(const uint8_t *map, size_t map_len,
                        const uint8_t *plan, size_t plan_len,
                        uint8_t *out, size_t out_len);
