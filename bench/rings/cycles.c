/* A garbage ring that settling finds and frees, for callgrind, which counts within recycler_settle. Word: how many objects, each with sixteen
 * fields that lead to its neighbours. */
#include <stdint.h>
#include <stdio.h>
#include <stdlib.h>

#include "recycler.h"

enum { SLOTS = 1024, FIELDS = 16, LOG_ENTRIES = 262143, FIRST = 1, LAST, NEXT, REGISTERS };

static recycler heap = RECYCLER_CLOSED;
static recycler_handle *const mutator = &heap.mutators[0];

static void must(uint32_t code, const recycler_asked *told, const char *call) {
    if (code != RECYCLER_OK || (told != NULL && told->answer != RECYCLER_A_DONE)) {
        fprintf(stderr, "recycler_%s answers code %u\n", call, (unsigned)code);
        exit(1);
    }
}

/* Half the fields of each of two objects lead to the other. */
static void link_both(uint32_t one, uint32_t other) {
    recycler_asked told;
    for (uint32_t field = 0; field < FIELDS / 2; field++) {
        must(recycler_put(mutator, one, field, other, &told), &told, "put");
        must(recycler_put(mutator, other, field + FIELDS / 2, one, &told), &told, "put");
    }
}

int main(int argc, char **argv) {
    uint32_t objects = argc > 1 ? (uint32_t)atol(argv[1]) : 0;
    recycler_asked told;
    recycler_settled settled;
    const recycler_config config = { SLOTS, FIELDS, REGISTERS, 1, LOG_ENTRIES, 1, 0, 0 };
    must(recycler_open(&heap, &config), NULL, "open");
    must(recycler_start(&heap), NULL, "start");
    must(recycler_new(mutator, FIRST, 0, &told), &told, "new");
    must(recycler_copy(mutator, LAST, FIRST, &told), &told, "copy");
    for (uint32_t made = 1; made < objects; made++) {
        must(recycler_new(mutator, NEXT, made, &told), &told, "new");
        link_both(LAST, NEXT);
        must(recycler_copy(mutator, LAST, NEXT, &told), &told, "copy");
    }
    link_both(LAST, FIRST);
    for (uint32_t reg = FIRST; reg < REGISTERS; reg++) {
        must(recycler_null(mutator, reg, &told), &told, "null");
    }
    must(recycler_stop(&heap), NULL, "stop");
    must(recycler_settle(&heap, &settled), NULL, "settle");
    must(recycler_close(&heap), NULL, "close");
    return settled.freed == objects ? 0 : 1;
}
