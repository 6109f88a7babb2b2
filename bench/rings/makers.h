/* What rings.c and trees.c have in common. THREADS threads make things of objects and drop them, over the allocator of the file that
 * ALLOCATOR names.
 *
 * Words: how many things each thread makes; `none`, `wall` or `processor`, so that each birth is timed by no clock, by the wall or by its
 * thread's processor time. Boehm's collector alone is told how many bytes its heap may have, and with `whole` takes them at once. It prints
 * how many objects were made, in how many nanoseconds by the wall, how many births were refused, and of the births the longest call and the
 * longest wait, refused calls included, in nanoseconds. At the end stands how many bytes the heap holds. Before the clock starts, the first
 * thread makes a list of LIVE objects, which it keeps to the end. After each thing that it makes, a register of it walks WALK objects on.
 *
 * A program says before it includes this: FIELDS that an object has, REGISTERS that a thread has, two at least, OBJECTS in a thing, and
 * KEPT, how many objects registers reach in the end, beside the list. And it has the call `replace`. */
#define _POSIX_C_SOURCE 200112L
#include <inttypes.h>
#include <pthread.h>
#include <sched.h>
#include <stdarg.h>
#include <stdbool.h>
#include <stdint.h>
#include <stdio.h>
#include <stdlib.h>
#include <string.h>
#include <time.h>

/* One register more names the list, in the first thread, and another one walks over it, if any does. */
enum { LIST = REGISTERS, WALKER, ALL_REGISTERS = WALKER + (WALK > 0) };

/* A thread, and what it told: when it began and ended, how many births were refused, and the longest call and wait. */
typedef struct maker {
    int number;
    uint64_t begun, ended, refused, call, wait;
} maker;

/* What an allocator has for each thread: registers that name objects. */
typedef struct seat seat;

/* A program's: makes a thing of OBJECTS, and drops it or an older one. */
static void replace(maker *m, seat *s, long round);

/* An allocator's. `make` tells whether there was room for the object; after a refused birth comes give_way. A thread polls for each eight
 * objects or so. `follow` lets a register name what its object's field leads to, and tells whether that is an object. `empty` lets a
 * register be null, and `drop` says besides that nothing else names what the register reaches. */
static void open_heap(uint64_t most_bytes, bool whole);
static uint64_t heap_bytes(void);
static void close_heap(void);
static void enter(seat *s, int thread);
static void leave(seat *s);
static void poll(seat *s);
static void give_way(seat *s);
static bool make(seat *s, int reg, uint32_t label);
static void link_to(seat *s, int from, int field, int to);
static bool follow(seat *s, int reg, int field);
static void copy(seat *s, int to, int from);
static void empty(seat *s, int reg);
static void drop(seat *s, int reg);

static void fail(const char *format, ...) {
    va_list given;
    va_start(given, format);
    vfprintf(stderr, format, given);
    va_end(given);
    fputc('\n', stderr);
    exit(1);
}

/* A place that all threads have to come to, before any goes on. */
typedef struct gate {
    pthread_mutex_t lock;
    int missing;
} gate;

#define GATE { PTHREAD_MUTEX_INITIALIZER, THREADS }

/* Whether all have come, of which so many more do now. */
static bool is_open(gate *g, int more) {
    pthread_mutex_lock(&g->lock);
    g->missing -= more;
    int missing = g->missing;
    pthread_mutex_unlock(&g->lock);
    return missing == 0;
}

/* Who waits polls: else it would hold up a collector, and with it the others. */
static void meet(gate *g, seat *s) {
    for (bool open = is_open(g, 1); !open; open = is_open(g, 0)) {
        poll(s);
        sched_yield();
    }
}

static void start_thread(pthread_t *thread, void *(*work)(void *), void *given);

#include ALLOCATOR

/* Behind the allocator, as gc.h makes pthread_create its own. */
static void start_thread(pthread_t *thread, void *(*work)(void *), void *given) {
    if (pthread_create(thread, NULL, work, given) != 0) {
        fail("a thread can't be started");
    }
}

static long rounds;
static bool clocked;
static clockid_t births_clock = CLOCK_MONOTONIC;
static gate start = GATE;

static uint64_t now(clockid_t by) {
    struct timespec it;
    clock_gettime(by, &it);
    return (uint64_t)it.tv_sec * 1000000000 + (uint64_t)it.tv_nsec;
}

static uint64_t greater(uint64_t a, uint64_t b) {
    return a > b ? a : b;
}

/* Makes an object, with as many tries as that takes. */
static void birth(maker *m, seat *s, int reg, uint32_t label) {
    if (!clocked) {
        while (!make(s, reg, label)) {
            m->refused++;
            give_way(s);
        }
        return;
    }
    uint64_t begun = now(births_clock);
    uint64_t tried = begun;
    while (!make(s, reg, label)) {
        m->call = greater(m->call, now(births_clock) - tried);
        m->refused++;
        give_way(s);
        tried = now(births_clock);
    }
    uint64_t ended = now(births_clock);
    m->call = greater(m->call, ended - tried);
    m->wait = greater(m->wait, ended - begun);
}

/* Makes the list, the oldest object first. Two registers, which are null afterwards, name its last object and the next one. */
static void make_list(seat *s) {
    enum { LAST_ONE, NEXT_ONE };
    for (int number = 0; number < LIVE; number++) {
        while (!make(s, NEXT_ONE, (uint32_t)number)) {
            give_way(s);
        }
        if (number == 0) {
            copy(s, LIST, NEXT_ONE);
        } else {
            link_to(s, LAST_ONE, 0, NEXT_ONE);
        }
        copy(s, LAST_ONE, NEXT_ONE);
    }
    empty(s, LAST_ONE);
    empty(s, NEXT_ONE);
}

/* Behind its last object the walk begins anew. */
static void walk(seat *s) {
    for (int step = 0; step < WALK; step++) {
        if (!follow(s, WALKER, 0)) {
            copy(s, WALKER, LIST);
        }
    }
}

static void *work(void *given) {
    maker *m = given;
    seat s;
    enter(&s, m->number);
    if (m->number == 0) {
        make_list(&s);
    }
    meet(&start, &s);
    m->begun = now(CLOCK_MONOTONIC);
    for (long round = 0; round < rounds; round++) {
        replace(m, &s, round);
        if (m->number == 0) {
            walk(&s);
        }
    }
    m->ended = now(CLOCK_MONOTONIC);
    leave(&s);
    return NULL;
}

/* Runs the threads, and tells of all together. */
static maker run(void) {
    pthread_t threads[THREADS];
    maker makers[THREADS] = {{0, 0, 0, 0, 0, 0}};
    maker all = {0, UINT64_MAX, 0, 0, 0, 0};
    for (int i = 0; i < THREADS; i++) {
        makers[i].number = i;
        start_thread(&threads[i], work, &makers[i]);
    }
    for (int i = 0; i < THREADS; i++) {
        pthread_join(threads[i], NULL);
        all.begun = makers[i].begun < all.begun ? makers[i].begun : all.begun;
        all.ended = greater(all.ended, makers[i].ended);
        all.refused += makers[i].refused;
        all.call = greater(all.call, makers[i].call);
        all.wait = greater(all.wait, makers[i].wait);
    }
    return all;
}

int main(int argc, char **argv) {
    rounds = argc > 1 ? atol(argv[1]) : 0;
    clocked = argc > 2 && strcmp(argv[2], "none") != 0;
    if (clocked && strcmp(argv[2], "processor") == 0) {
        births_clock = CLOCK_THREAD_CPUTIME_ID;
    }
    open_heap(argc > 3 ? strtoull(argv[3], NULL, 10) : 0, argc > 4);
    maker all = run();
    uint64_t bytes = heap_bytes();
    close_heap();
    printf("%ld %" PRIu64 " %" PRIu64, rounds * THREADS * OBJECTS, all.ended - all.begun, all.refused);
    printf(" %" PRIu64 " %" PRIu64 " %" PRIu64 "\n", all.call, all.wait, bytes);
    return 0;
}
