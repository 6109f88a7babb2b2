/* How a full heap begins anew: it stops, settles, is renewed and starts. Word: how many slots. Objects with two fields take all of them, and
 * make one list. callgrind counts within these four calls, and each count has its call's name. The program prints how many nanoseconds they
 * took together. */
#define _POSIX_C_SOURCE 200112L
#include <inttypes.h>
#include <stdint.h>
#include <stdio.h>
#include <stdlib.h>
#include <time.h>

#include <valgrind/callgrind.h>

#include "recycler.h"

enum { LIST, OBJECT, REGISTERS, FIELDS = 2, LOG_ENTRIES = 262143 };

static recycler heap = RECYCLER_CLOSED;

static void must(uint32_t code, const char *call) {
    if (code != RECYCLER_OK) {
        fprintf(stderr, "recycler_%s answers code %u\n", call, (unsigned)code);
        exit(1);
    }
}

static void must_do(uint32_t code, const recycler_asked *told, const char *call) {
    must(code, call);
    if (told->answer != RECYCLER_A_DONE) {
        fprintf(stderr, "recycler_%s has answer %u\n", call, (unsigned)told->answer);
        exit(1);
    }
}

/* One object more, which leads to the list and is its first. */
static void grow(uint32_t label) {
    recycler_handle *mutator = &heap.mutators[0];
    recycler_asked told;
    must_do(recycler_new(mutator, OBJECT, label, &told), &told, "new");
    must_do(recycler_put(mutator, OBJECT, 0, LIST, &told), &told, "put");
    must_do(recycler_copy(mutator, LIST, OBJECT, &told), &told, "copy");
}

static uint64_t now(void) {
    struct timespec it;
    clock_gettime(CLOCK_MONOTONIC, &it);
    return (uint64_t)it.tv_sec * 1000000000 + (uint64_t)it.tv_nsec;
}

static void counted(uint32_t code, const char *call) {
    CALLGRIND_STOP_INSTRUMENTATION;
    CALLGRIND_DUMP_STATS_AT(call);
    must(code, call);
    CALLGRIND_START_INSTRUMENTATION;
}

int main(int argc, char **argv) {
    uint32_t slots = argc > 1 ? (uint32_t)atol(argv[1]) : 0;
    recycler_settled settled;
    const recycler_config config = { slots, FIELDS, REGISTERS, 1, LOG_ENTRIES, 1, 0, 0 };
    must(recycler_open(&heap, &config), "open");
    must(recycler_start(&heap), "start");
    /* the object of the opening is the list's last one */
    for (uint32_t taken = 1; taken < slots; taken++) {
        grow(taken);
    }
    CALLGRIND_START_INSTRUMENTATION;
    uint64_t begun = now();
    counted(recycler_stop(&heap), "stop");
    counted(recycler_settle(&heap, &settled), "settle");
    counted(recycler_renew(&heap, slots), "renew");
    counted(recycler_start(&heap), "start");
    uint64_t ended = now();
    CALLGRIND_STOP_INSTRUMENTATION;
    printf("%" PRIu64 "\n", ended - begun);
    must(recycler_stop(&heap), "stop");
    must(recycler_close(&heap), "close");
    return settled.live == slots ? 0 : 1;
}
