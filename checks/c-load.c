/* c-load SECONDS LOG_ENTRIES SLEEP NAP: four mutators make, walk and drop rings for so long, and a fifth thread turns the collector. Every
 * SLEEP milliseconds the first mutator doesn't poll for a second, and behind each collection the collector's thread sleeps for NAP
 * milliseconds; 0 is never. A walk compares each label. At the end the heap settles: just the first object may be left. It prints how
 * many rings were made and how often each refusal came, and ends with 1 where something is lost. */
#define _POSIX_C_SOURCE 200112L
#include <inttypes.h>
#include <pthread.h>
#include <sched.h>
#include <stdio.h>
#include <stdlib.h>
#include <time.h>

#include "recycler.h"

enum { SLOTS = 512, MUTATORS = 4, LENGTH = 8, FIRST = 1, LAST = 2, NEXT = 3, REGISTERS = 4, ANSWERS = 12 };

typedef struct worker {
    recycler_handle *handle;
    int number;
    uint64_t rings, answers[ANSWERS];
} worker;

static recycler heap = RECYCLER_CLOSED;
static pthread_mutex_t lock = PTHREAD_MUTEX_INITIALIZER;
static int working = MUTATORS;
static double end, sleep_every;
static long nap;

static double now(void) {
    struct timespec t;
    clock_gettime(CLOCK_MONOTONIC, &t);
    return (double)t.tv_sec + (double)t.tv_nsec / 1e9;
}

static void rest(long milliseconds) {
    const struct timespec t = { milliseconds / 1000, milliseconds % 1000 * 1000000 };
    nanosleep(&t, NULL);
}

static void fail(const char *what, uint32_t number) {
    printf("%s: %" PRIu32 "\n", what, number);
    exit(1);
}

static void must(uint32_t code, const char *call) {
    if (code != RECYCLER_OK) {
        fail(call, code);
    }
}

static void poll(worker *w) {
    uint32_t crossed;
    must(recycler_poll(w->handle, &crossed), "poll");
    sched_yield();
}

/* Counts the answer, and tells whether the command was made. A refusal has to be one that the command may be given. */
static bool made(worker *w, uint32_t answer, bool birth) {
    w->answers[answer]++;
    if (answer == RECYCLER_A_DONE) {
        return true;
    }
    if (answer != RECYCLER_A_LOG_FULL && !(birth && (answer == RECYCLER_A_FULL || answer == RECYCLER_A_BUSY))) {
        fail("answer", answer);
    }
    poll(w);
    return false;
}

static void make(worker *w, uint32_t reg, uint32_t label) {
    recycler_asked told;
    do {
        must(recycler_new(w->handle, reg, label, &told), "new");
    } while (!made(w, told.answer, true));
}

static void put(worker *w, uint32_t src, uint32_t val) {
    recycler_asked told;
    do {
        must(recycler_put(w->handle, src, 0, val, &told), "put");
    } while (!made(w, told.answer, false));
}

static void copy(worker *w, uint32_t dst, uint32_t src) {
    recycler_asked told;
    must(recycler_copy(w->handle, dst, src, &told), "copy");
}

/* Once around the ring: each object has its label, and the last leads to the first. */
static void walk(worker *w, uint32_t label) {
    recycler_asked told;
    copy(w, NEXT, FIRST);
    for (uint32_t i = 0; i < LENGTH; i++) {
        must(recycler_value(w->handle, NEXT, &told), "value");
        if (told.answer != RECYCLER_A_VALUE || told.label != label + i) {
            fail("another label", told.label);
        }
        must(recycler_get(w->handle, NEXT, NEXT, 0, &told), "get");
    }
    must(recycler_same(w->handle, NEXT, FIRST, &told), "same");
    if (told.answer != RECYCLER_A_YES) {
        fail("no ring", told.answer);
    }
}

static void ring(worker *w) {
    recycler_asked told;
    const uint32_t label = (uint32_t)(w->rings * LENGTH);
    make(w, FIRST, label);
    copy(w, LAST, FIRST);
    for (uint32_t i = 1; i < LENGTH; i++) {
        make(w, NEXT, label + i);
        put(w, LAST, NEXT);
        copy(w, LAST, NEXT);
    }
    put(w, LAST, FIRST);
    walk(w, label);
    for (uint32_t reg = FIRST; reg <= NEXT; reg++) {
        must(recycler_null(w->handle, reg, &told), "null");
    }
    w->rings++;
}

static bool all_done(int more) {
    pthread_mutex_lock(&lock);
    working -= more;
    const bool done = working == 0;
    pthread_mutex_unlock(&lock);
    return done;
}

static void *mutate(void *of) {
    worker *w = of;
    double slept = now();
    while (now() < end) {
        ring(w);
        poll(w);
        if (w->number == 0 && sleep_every > 0 && now() - slept > sleep_every) {
            rest(1000);
            slept = now();
        }
    }
    for (bool done = all_done(1); !done; done = all_done(0)) {
        poll(w);
    }
    return NULL;
}

static void *collect(void *of) {
    recycler_turned told;
    (void)of;
    while (!all_done(0)) {
        must(recycler_collect(&heap.collector, 1000, &told), "collect");
        if (told.what == RECYCLER_W_COLLECTED && nap > 0) {
            rest(nap);
        } else if (told.what != RECYCLER_W_MOVED) {
            sched_yield();
        }
    }
    return NULL;
}

int main(int count, char **words) {
    pthread_t threads[MUTATORS + 1];
    static worker workers[MUTATORS];
    uint64_t rings = 0, answers[ANSWERS] = { 0 };
    recycler_settled settled;
    recycler_totals_told totals;
    if (count != 5) {
        fail("words", (uint32_t)count);
    }
    const recycler_config config = { SLOTS, 1, REGISTERS, MUTATORS, (uint32_t)atoi(words[2]), 1, 0, 0 };
    end = now() + atof(words[1]);
    sleep_every = atof(words[3]) / 1000;
    nap = atol(words[4]);
    must(recycler_open(&heap, &config), "open");
    must(recycler_start(&heap), "start");
    for (int i = 0; i < MUTATORS; i++) {
        workers[i].handle = &heap.mutators[i];
        workers[i].number = i;
        if (pthread_create(&threads[i], NULL, mutate, &workers[i]) != 0) {
            fail("no thread", (uint32_t)i);
        }
    }
    if (pthread_create(&threads[MUTATORS], NULL, collect, NULL) != 0) {
        fail("no thread", MUTATORS);
    }
    for (int i = 0; i <= MUTATORS; i++) {
        pthread_join(threads[i], NULL);
    }
    must(recycler_stop(&heap), "stop");
    must(recycler_settle(&heap, &settled), "settle");
    must(recycler_totals(&heap, &totals), "totals");
    must(recycler_close(&heap), "close");
    for (int i = 0; i < MUTATORS; i++) {
        rings += workers[i].rings;
        for (int answer = 0; answer < ANSWERS; answer++) {
            answers[answer] += workers[i].answers[answer];
        }
    }
    if (totals.born != LENGTH * rings + 1 || totals.freed != LENGTH * rings || settled.live != 1) {
        fail("left", settled.live);
    }
    printf("%" PRIu64 " rings, %" PRIu32 " collections; refused: full %" PRIu64 ", busy %" PRIu64 ", log full %" PRIu64 "\n", rings,
           totals.collections, answers[RECYCLER_A_FULL], answers[RECYCLER_A_BUSY], answers[RECYCLER_A_LOG_FULL]);
    return 0;
}
