/* What an object of a garbage ring takes its mutator and the collector, for callgrind. Words: how many slots, and how many of their objects
 * live in a list that a register names. In each round one thread makes RINGS rings of RING objects and drops them, and then turns the
 * collector until COLLECTIONS are complete. The counts of the mutator's commands are named `mutator`, those of the turns `collector`, and
 * those of turns over the list alone, where no ring was made, `idle`. Those named `traced` are of turns in which the list is tried: a second
 * register named its first object before them, and names it no more. */
#include <stdbool.h>
#include <stdint.h>
#include <stdio.h>
#include <stdlib.h>

#include <valgrind/callgrind.h>

#include "recycler.h"

enum { ROUNDS = 20, RINGS = 8, RING = 8, COLLECTIONS = 3, LOG_ENTRIES = 262143, LIST = 0, FIRST, LAST, NEXT, REGISTERS };

static recycler heap = RECYCLER_CLOSED;
static recycler_handle *const mutator = &heap.mutators[0];

static void must(uint32_t code, const recycler_asked *told, const char *call) {
    if (code != RECYCLER_OK || (told != NULL && told->answer != RECYCLER_A_DONE)) {
        fprintf(stderr, "recycler_%s answers code %u\n", call, (unsigned)code);
        exit(1);
    }
}

static void make(uint32_t reg, uint32_t label) {
    recycler_asked told;
    must(recycler_new(mutator, reg, label, &told), &told, "new");
}

static void link_to(uint32_t from, uint32_t to) {
    recycler_asked told;
    must(recycler_put(mutator, from, 0, to, &told), &told, "put");
}

static void copy(uint32_t to, uint32_t from) {
    recycler_asked told;
    must(recycler_copy(mutator, to, from, &told), &told, "copy");
}

static void drop(uint32_t reg) {
    recycler_asked told;
    must(recycler_null(mutator, reg, &told), &told, "null");
}

/* A list of so many objects; the newest one is its first. */
static void make_list(uint32_t live) {
    drop(LIST);
    for (uint32_t number = 0; number < live; number++) {
        make(NEXT, number);
        link_to(NEXT, LIST);
        copy(LIST, NEXT);
    }
    drop(NEXT);
}

static void make_ring(void) {
    make(FIRST, 0);
    copy(LAST, FIRST);
    for (uint32_t label = 1; label < RING; label++) {
        make(NEXT, label);
        link_to(LAST, NEXT);
        copy(LAST, NEXT);
    }
    link_to(LAST, FIRST);
    for (uint32_t reg = FIRST; reg <= NEXT; reg++) {
        drop(reg);
    }
}

/* The mutator polls where the collector waits for it. Polls aren't counted. */
static void collect(bool counts) {
    recycler_turned told = {0, 0, 0, 0};
    uint32_t crossed;
    for (int complete = 0; complete < COLLECTIONS; complete += told.what == RECYCLER_W_COLLECTED) {
        if (counts) {
            CALLGRIND_START_INSTRUMENTATION;
        }
        must(recycler_collect(&heap.collector, 1000000, &told), NULL, "collect");
        if (counts) {
            CALLGRIND_STOP_INSTRUMENTATION;
        }
        must(recycler_poll(mutator, &crossed), NULL, "poll");
    }
}

static void round_of(uint32_t rings, const char *turns) {
    CALLGRIND_START_INSTRUMENTATION;
    for (uint32_t ring = 0; ring < rings; ring++) {
        make_ring();
    }
    CALLGRIND_STOP_INSTRUMENTATION;
    CALLGRIND_DUMP_STATS_AT("mutator");
    collect(true);
    CALLGRIND_DUMP_STATS_AT(turns);
}

int main(int argc, char **argv) {
    uint32_t slots = argc > 1 ? (uint32_t)atol(argv[1]) : 0;
    uint32_t live = argc > 2 ? (uint32_t)atol(argv[2]) : 0;
    const recycler_config config = { slots, 1, REGISTERS, 1, LOG_ENTRIES, 1, 0, 0 };
    must(recycler_open(&heap, &config), NULL, "open");
    must(recycler_start(&heap), NULL, "start");
    make_list(live);
    collect(false);
    for (int round = 0; round < ROUNDS; round++) {
        round_of(0, "idle");
        round_of(RINGS, "collector");
        copy(FIRST, LIST);
        collect(false);
        drop(FIRST);
        round_of(0, "traced");
    }
    must(recycler_stop(&heap), NULL, "stop");
    must(recycler_close(&heap), NULL, "close");
    return 0;
}
