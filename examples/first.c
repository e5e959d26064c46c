/* A first use: a pool of three tables, a map, a look up, and a refusal.
 *   tools/archive.sh && cc -Iinclude examples/first.c target/staticlib/libptb.a -o target/first && target/first */
#include "ptb.h"
#include <inttypes.h>
#include <stdio.h>

#define TABLES 3
static uint64_t words[512 * TABLES];
static uint32_t ledger[TABLES];

/* What every call is lent, and the handle: tables at 0x80000000, a root of level 1, the lower range. */
#define POOL words, 512 * TABLES, ledger, TABLES, 0x80000000, 1, PTB_LOWER

int main(void) {
    uint64_t answer[4];
    if (ptb_make(POOL, answer)) return 1;
    /* two pages from frame 0x9000 on: valid, accessed */
    uint64_t refusal = ptb_map(POOL, 0x1000, 0x3000, 0x9000, PTB_VALID | PTB_ACCESSED, 0, answer);
    printf("map: refusal %" PRIu64 ", tables in use %" PRIu64 "\n", refusal, answer[0]);
    refusal = ptb_look_up(POOL, 0x2345, answer);
    printf("look up: refusal %" PRIu64 ", kind %" PRIu64 ", level %" PRIu64 ", flags 0x%" PRIx64 ", frame 0x%" PRIx64 "\n", refusal, answer[0], answer[1], answer[2], answer[3]);
    /* a page in another GiB: there is no table left for it, and nothing changes */
    refusal = ptb_map(POOL, 0x40000000, 0x40001000, 0x9000, PTB_VALID | PTB_ACCESSED, 0, answer);
    printf("map: refusal %" PRIu64 ", needed %" PRIu64 ", free %" PRIu64 "\n", refusal, answer[0], answer[1]);
    return 0;
}
