/* Four mutators on a thread each build and drop lists and rings; a fifth thread turns the collector beside them. Then the heap is
 * stopped and settles. It prints how many objects were made and freed, and how many slots hold objects afterwards. */
#define _POSIX_C_SOURCE 200112L
#include <inttypes.h>
#include <pthread.h>
#include <sched.h>
#include <stdio.h>
#include <stdlib.h>
#include <time.h>

#include "recycler.h"

enum { SLOTS = 1024, MUTATORS = 4, ROUNDS = 1000, LONG = 8, FIRST = 1, LAST = 2, NEXT = 3 };

static recycler heap = RECYCLER_CLOSED;
static pthread_mutex_t lock = PTHREAD_MUTEX_INITIALIZER;
static int working = MUTATORS;

/* The program ends where a call is not answered RECYCLER_OK. */
static void must(uint32_t code, const char *call) {
    if (code != RECYCLER_OK) {
        fprintf(stderr, "%s: code %u\n", call, (unsigned)code);
        exit(1);
    }
}

/* Crosses into the requested epoch, and lets another thread go on: with no slot or no room in the log, the collector has to. */
static void cross(recycler_handle *m) {
    uint32_t crossed;
    must(recycler_poll(m, &crossed), "poll");
    sched_yield();
}

/* Makes an object. Where no slot is free it tries again: the collector may free one. */
static void make(recycler_handle *m, uint32_t reg, uint32_t label) {
    recycler_asked told;
    must(recycler_new(m, reg, label, &told), "new");
    while (told.answer != RECYCLER_A_DONE) {
        cross(m);
        must(recycler_new(m, reg, label, &told), "new");
    }
}

/* Lets field 0 of the object in `from` lead to the object in `to`. Where the log is full it tries again. */
static void link_to(recycler_handle *m, uint32_t from, uint32_t to) {
    recycler_asked told;
    must(recycler_put(m, from, 0, to, &told), "put");
    while (told.answer != RECYCLER_A_DONE) {
        cross(m);
        must(recycler_put(m, from, 0, to, &told), "put");
    }
}

/* Builds a list, or a ring, whose last object leads back to its first. Then no register names an object of it. */
static void build(recycler_handle *m, int ring) {
    recycler_asked told;
    make(m, FIRST, 0);
    must(recycler_copy(m, LAST, FIRST, &told), "copy");
    for (uint32_t i = 1; i < LONG; i++) {
        make(m, NEXT, i);
        link_to(m, LAST, NEXT);
        must(recycler_copy(m, LAST, NEXT, &told), "copy");
    }
    if (ring) {
        link_to(m, LAST, FIRST);
    }
    for (uint32_t reg = FIRST; reg <= NEXT; reg++) {
        must(recycler_null(m, reg, &told), "null");
    }
}

/* Whether all mutators are done, of which so many more are now. */
static int all_done(int more) {
    pthread_mutex_lock(&lock);
    working -= more;
    int left = working;
    pthread_mutex_unlock(&lock);
    return left == 0;
}

/* A mutator that is done polls until all are: else it would hold up the collector, and the others would find no slot. */
static void *mutate(void *handle) {
    for (int round = 0; round < ROUNDS; round++) {
        build(handle, round % 2);
        cross(handle);
    }
    for (int done = all_done(1); !done; done = all_done(0)) {
        cross(handle);
    }
    return NULL;
}

/* Where a collection freed nothing there was little to do, so the thread rests shortly: each collection spends an epoch. */
static void *collect(void *handle) {
    const struct timespec shortly = { 0, 100000 };
    recycler_turned told;
    while (!all_done(0)) {
        must(recycler_collect(handle, 100, &told), "collect");
        if (told.what == RECYCLER_W_WAITING) {
            sched_yield();
        } else if (told.what == RECYCLER_W_COLLECTED && told.freed == 0) {
            nanosleep(&shortly, NULL);
        }
    }
    return NULL;
}

static void start_thread(pthread_t *thread, void *(*work)(void *), recycler_handle *handle) {
    if (pthread_create(thread, NULL, work, handle) != 0) {
        fprintf(stderr, "no thread\n");
        exit(1);
    }
}

int main(void) {
    const recycler_config config = {
        .slots = SLOTS, .fields = 1, .registers = 4, .mutators = MUTATORS,
        .log_entries = RECYCLER_LOG_ENTRIES(SLOTS, MUTATORS), .first_epoch = 1,
    };
    pthread_t threads[MUTATORS + 1];
    recycler_settled settled;
    recycler_totals_told totals;
    must(recycler_open(&heap, &config), "open");
    must(recycler_start(&heap), "start");
    for (int i = 0; i < MUTATORS; i++) {
        start_thread(&threads[i], mutate, &heap.mutators[i]);
    }
    start_thread(&threads[MUTATORS], collect, &heap.collector);
    for (int i = 0; i <= MUTATORS; i++) {
        pthread_join(threads[i], NULL);
    }
    must(recycler_stop(&heap), "stop");
    must(recycler_settle(&heap, &settled), "settle");
    must(recycler_totals(&heap, &totals), "totals");
    must(recycler_close(&heap), "close");
    printf("made %" PRIu64 ", freed %" PRIu64 ", live %u\n", totals.born, totals.freed, (unsigned)settled.live);
    return 0;
}
