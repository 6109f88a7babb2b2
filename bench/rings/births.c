/* Births over a heap whose lowest slots are taken, for callgrind. That counts within recycler_new alone, and only while the program has
 * it switched on. Words: how many slots, and then shares of taken slots in per cent, rising. For each share the program lets live objects
 * take the lowest slots, and makes BIRTHS objects more, each of which is freed before the next one. The count has the share's name. */
#include <stdint.h>
#include <stdio.h>
#include <stdlib.h>

#include <valgrind/callgrind.h>

#include "recycler.h"

enum { FIRST = 0, LAST, NEXT, REGISTERS, BIRTHS = 4, LOG_ENTRIES = 262143 };

static recycler heap = RECYCLER_CLOSED;
static recycler_handle *const mutator = &heap.mutators[0];

static void must(uint32_t code, const char *call) {
    if (code != RECYCLER_OK) {
        fprintf(stderr, "recycler_%s answers code %u\n", call, (unsigned)code);
        exit(1);
    }
}

static void must_do(uint32_t code, const recycler_asked *told, const char *call) {
    must(code, call);
    if (told->answer != RECYCLER_A_DONE) {
        fprintf(stderr, "recycler_%s has answer %u\n", call, (unsigned)told->answer);
        exit(1);
    }
}

static void make(uint32_t label) {
    recycler_asked told;
    must_do(recycler_new(mutator, NEXT, label, &told), &told, "new");
}

static void copy(uint32_t to, uint32_t from) {
    recycler_asked told;
    must_do(recycler_copy(mutator, to, from, &told), &told, "copy");
}

/* Lets the register be null, and the collector turn until it has freed the object that the register named. */
static void drop(uint32_t reg) {
    recycler_asked asked;
    recycler_turned told = {0, 0, 0, 0};
    uint32_t crossed;
    must_do(recycler_null(mutator, reg, &asked), &asked, "null");
    while (told.what != RECYCLER_W_COLLECTED || told.freed == 0) {
        must(recycler_poll(mutator, &crossed), "poll");
        must(recycler_turn(&heap.collector, &told), "turn");
    }
}

/* Makes an object that lives on: the last one of a list that register FIRST names. */
static void take(uint32_t number) {
    recycler_asked told;
    make(number);
    if (number == 0) {
        copy(FIRST, NEXT);
    } else {
        must_do(recycler_put(mutator, LAST, 0, NEXT, &told), &told, "put");
    }
    copy(LAST, NEXT);
}

/* Makes objects and frees them one by one. */
static void count_births(void) {
    for (int birth = 0; birth < BIRTHS; birth++) {
        CALLGRIND_START_INSTRUMENTATION;
        make(0);
        CALLGRIND_STOP_INSTRUMENTATION;
        drop(NEXT);
    }
}

int main(int argc, char **argv) {
    uint32_t slots = argc > 1 ? (uint32_t)atol(argv[1]) : 0;
    uint32_t taken = 0;
    const recycler_config config = { slots, 1, REGISTERS, 1, LOG_ENTRIES, 1, 0, 0 };
    must(recycler_open(&heap, &config), "open");
    must(recycler_start(&heap), "start");
    drop(FIRST);
    for (int word = 2; word < argc; word++) {
        for (; taken < slots * (uint32_t)atol(argv[word]) / 100; taken++) {
            take(taken);
        }
        count_births();
        CALLGRIND_DUMP_STATS_AT(argv[word]);
    }
    must(recycler_stop(&heap), "stop");
    must(recycler_close(&heap), "close");
    return 0;
}
