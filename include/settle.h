/* The entry of the checker for C and C++. docs/FORMATS.md has both file formats and every outcome. */
#ifndef SETTLE_H
#define SETTLE_H

#include <stddef.h>
#include <stdint.h>

#ifdef __cplusplus
extern "C" {
#endif

/* What settle_files returns. */
#define SETTLE_DONE 0u      /* the outcome is in bytes 0 to 7 of out, later bytes are untouched */
#define SETTLE_NO_MEMORY 1u /* there is not enough memory; out is untouched */
#define SETTLE_BAD_SIZE 24u /* out_len is below 8, or a file is longer than 65,536 bytes; out is untouched */

/* Byte 0 of out. */
#define SETTLE_REFUSED 0   /* a file has a fault; bytes 1 and 2: its number */
#define SETTLE_LEAST 1     /* no conflict-free set of routes sums to less; bytes 1 and 2: the claim */
#define SETTLE_OPEN 2      /* branches are open; bytes 1 and 2: how many */
#define SETTLE_UNSHOWN 3   /* carts have no route; bytes 1 and 2: how many */
#define SETTLE_OTHERSUM 4  /* the routes do not sum to the claim; bytes 1 and 2: their sum */

/* Byte 3 of out: the layer of a refusal, else 0. */
#define SETTLE_LAYER_MAP 1  /* the map file */
#define SETTLE_LAYER_FILE 2 /* the form of the plan file */
#define SETTLE_LAYER_CALL 3 /* what a command of the plan file says */

/* Bytes 4 to 7 of out: the offset of a refusal in its file, else 0.
   Numbers of several bytes have the most significant byte first. */

/* Bytes 1 and 2 of out: the number of a refusal, by its word. docs/REFUSALS.md says when each is given. */
#define SETTLE_REFUSED_HEADLESS 1
#define SETTLE_REFUSED_GAUGE 2
#define SETTLE_REFUSED_RAGGED 3
#define SETTLE_REFUSED_STRANGE_SIGN 4
#define SETTLE_REFUSED_COUNT 5
#define SETTLE_REFUSED_NO_PLACE 6
#define SETTLE_REFUSED_TWICE 7
#define SETTLE_REFUSED_CROWDED 8
#define SETTLE_REFUSED_CARTS 9
#define SETTLE_REFUSED_SHARED 10
#define SETTLE_REFUSED_CLAIM 11
#define SETTLE_REFUSED_NO_CART 12
#define SETTLE_REFUSED_SHOWN 13
#define SETTLE_REFUSED_ROUTE 14
#define SETTLE_REFUSED_CONFLICT 15
#define SETTLE_REFUSED_NOTHING_OPEN 16
#define SETTLE_REFUSED_FULL 17
#define SETTLE_REFUSED_TICK 18
#define SETTLE_REFUSED_UNLAWFUL 19
#define SETTLE_REFUSED_CHEAPER 20
#define SETTLE_REFUSED_LETTER 21
#define SETTLE_REFUSED_CUT_SHORT 22
#define SETTLE_REFUSED_TRAILING 23

/* Settles the plan on the floor of the map; out has room for out_len bytes. No pointer is null, even where its
   length is 0, and out overlaps neither file. It asks malloc for memory and frees it again.
   It always ends, but has no time limit: two files can keep it busy for hours. Check plans that you do not trust in a
   process that you can stop.
   Calls share nothing: several threads may call it at the same time, each with its own out. */
uint32_t settle_files(const uint8_t *map, size_t map_len,
                      const uint8_t *plan, size_t plan_len,
                      uint8_t *out, size_t out_len);

#ifdef __cplusplus
}
#endif

#endif
