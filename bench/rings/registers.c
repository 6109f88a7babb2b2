/* Collections of a steady heap beside a mutator whose registers don't change, for callgrind. Words: what the registers hold (null, one,
 * leaves or objects), how many there are, and how many collections. */
#include <stdint.h>
#include <stdio.h>
#include <stdlib.h>
#include <string.h>

#include "recycler.h"

enum { SLOTS = 1024, LOG_ENTRIES = 4096 };

static recycler heap = RECYCLER_CLOSED;
static recycler_handle *const mutator = &heap.mutators[0];

static void must(uint32_t code, const recycler_asked *told, const char *call) {
    if (code != RECYCLER_OK || (told != NULL && told->answer != RECYCLER_A_DONE)) {
        fprintf(stderr, "recycler_%s answers code %u\n", call, (unsigned)code);
        exit(1);
    }
}

static void fill(const char *kind, uint32_t reg) {
    recycler_asked told;
    if (strcmp(kind, "one") == 0) {
        must(recycler_copy(mutator, reg, 0, &told), &told, "copy");
    } else if (strcmp(kind, "leaves") == 0) {
        must(recycler_leaf(mutator, reg, reg, &told), &told, "leaf");
    } else if (strcmp(kind, "objects") == 0) {
        must(recycler_new(mutator, reg, reg, &told), &told, "new");
    }
}

/* A collection waits until the mutator has crossed. */
static void collect(void) {
    recycler_turned turned;
    uint32_t crossed;
    do {
        must(recycler_collect(&heap.collector, UINT32_MAX, &turned), NULL, "collect");
        if (turned.what == RECYCLER_W_WAITING) {
            must(recycler_poll(mutator, &crossed), NULL, "poll");
        }
    } while (turned.what != RECYCLER_W_COLLECTED);
}

int main(int argc, char **argv) {
    const char *kind = argc > 1 ? argv[1] : "null";
    uint32_t registers = argc > 2 ? (uint32_t)atol(argv[2]) : 1;
    long collections = argc > 3 ? atol(argv[3]) : 0;
    const recycler_config config = { SLOTS, 1, registers, 1, LOG_ENTRIES, 1, 0, 0 };
    must(recycler_open(&heap, &config), NULL, "open");
    must(recycler_start(&heap), NULL, "start");
    for (uint32_t reg = 1; reg < registers; reg++) {
        fill(kind, reg);
    }
    for (long made = 0; made < collections; made++) {
        collect();
    }
    must(recycler_stop(&heap), NULL, "stop");
    must(recycler_close(&heap), NULL, "close");
    return 0;
}
