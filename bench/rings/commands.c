/* Commands over a full heap, for callgrind, which counts within the calls that it is told to. Word: how many slots. Each count has the
 * name of its command: new is one where no slot is free, and poll one where no epoch is requested. */
#include <stdint.h>
#include <stdio.h>
#include <stdlib.h>

#include <valgrind/callgrind.h>

#include "recycler.h"

enum { TIMES = 100, LOG_ENTRIES = 262143 };

static recycler heap = RECYCLER_CLOSED;
static recycler_handle *const mutator = &heap.mutators[0];

static void must(uint32_t code, const recycler_asked *told, uint32_t answer, const char *call) {
    if (code != RECYCLER_OK || (told != NULL && told->answer != answer)) {
        fprintf(stderr, "recycler_%s answers code %u\n", call, (unsigned)code);
        exit(1);
    }
}

static void new(uint32_t answer) {
    recycler_asked told;
    must(recycler_new(mutator, 1, 1, &told), &told, answer, "new");
}

static void get(void) {
    recycler_asked told;
    must(recycler_get(mutator, 1, 0, 0, &told), &told, RECYCLER_A_OBJECT, "get");
}

static void put(void) {
    recycler_asked told;
    must(recycler_put(mutator, 0, 0, 0, &told), &told, RECYCLER_A_DONE, "put");
}

static void copy(void) {
    recycler_asked told;
    must(recycler_copy(mutator, 1, 0, &told), &told, RECYCLER_A_DONE, "copy");
}

static void value(void) {
    recycler_asked told;
    must(recycler_value(mutator, 0, &told), &told, RECYCLER_A_VALUE, "value");
}

static void same(void) {
    recycler_asked told;
    must(recycler_same(mutator, 0, 1, &told), &told, RECYCLER_A_YES, "same");
}

static void null(void) {
    recycler_asked told;
    must(recycler_null(mutator, 1, &told), &told, RECYCLER_A_DONE, "null");
}

static void poll(void) {
    uint32_t crossed;
    must(recycler_poll(mutator, &crossed), NULL, 0, "poll");
}

static void refused(void) {
    new(RECYCLER_A_FULL);
}

static void count(void (*command)(void), const char *name) {
    CALLGRIND_START_INSTRUMENTATION;
    for (int time = 0; time < TIMES; time++) {
        command();
    }
    CALLGRIND_STOP_INSTRUMENTATION;
    CALLGRIND_DUMP_STATS_AT(name);
}

int main(int argc, char **argv) {
    uint32_t slots = argc > 1 ? (uint32_t)atol(argv[1]) : 0;
    const recycler_config config = { slots, 1, 2, 1, LOG_ENTRIES, 1, 0, 0 };
    must(recycler_open(&heap, &config), NULL, 0, "open");
    must(recycler_start(&heap), NULL, 0, "start");
    for (uint32_t taken = 1; taken < slots; taken++) {
        new(RECYCLER_A_DONE);
    }
    put();
    count(get, "get");
    count(put, "put");
    count(copy, "copy");
    count(value, "value");
    count(same, "same");
    count(null, "null");
    count(poll, "poll");
    count(refused, "new");
    must(recycler_stop(&heap), NULL, 0, "stop");
    must(recycler_close(&heap), NULL, 0, "close");
    return 0;
}
