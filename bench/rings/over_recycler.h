/* The allocator over librecycler_c. A further thread turns the collector. The heap has SLOTS slots, and each log LOG_ENTRIES entries. The
 * list of live objects takes the lowest slots. */
#include <malloc.h>

#include "recycler.h"

struct seat {
    recycler_handle *mutator;
};

static recycler heap = RECYCLER_CLOSED;
static uint64_t taken;
static pthread_t collector;
static gate end = GATE;

static void must(uint32_t code, const char *call) {
    if (code != RECYCLER_OK) {
        fail("recycler_%s answers code %u", call, (unsigned)code);
    }
}

static void *collect(void *nothing) {
    recycler_turned told;
    while (!is_open(&end, 0)) {
        must(recycler_collect(&heap.collector, 100, &told), "collect");
        if (told.what == RECYCLER_W_WAITING) {
            sched_yield();
        }
    }
    return nothing;
}

/* What malloc has given out, with its own words. */
static uint64_t given_out(void) {
    struct mallinfo2 told = mallinfo2();
    return told.uordblks + told.hblkhd;
}

/* A heap takes all its memory as it is opened and started. */
static void open_heap(uint64_t most_bytes, bool whole) {
    (void)most_bytes;
    (void)whole;
    uint64_t before = given_out();
    const recycler_config config = { SLOTS, FIELDS, ALL_REGISTERS, THREADS, LOG_ENTRIES, 1, 0, 0 };
    must(recycler_open(&heap, &config), "open");
    must(recycler_start(&heap), "start");
    taken = given_out() - before;
    start_thread(&collector, collect, NULL);
}

static uint64_t heap_bytes(void) {
    return taken;
}

/* Just the list and what registers name is left. */
static void close_heap(void) {
    recycler_settled told;
    pthread_join(collector, NULL);
    must(recycler_stop(&heap), "stop");
    must(recycler_settle(&heap, &told), "settle");
    if (told.live != THREADS * KEPT + LIVE) {
        fail("%u objects are left", (unsigned)told.live);
    }
    must(recycler_close(&heap), "close");
}

static void enter(seat *s, int thread) {
    s->mutator = &heap.mutators[thread];
    empty(s, 0);
}

static void leave(seat *s) {
    meet(&end, s);
}

static bool crosses(seat *s) {
    uint32_t crossed;
    must(recycler_poll(s->mutator, &crossed), "poll");
    return crossed != 0;
}

static void poll(seat *s) {
    crosses(s);
}

/* Without a slot, or with a full log, only the collector helps. A poll that crosses empties the log, and tells that a collection is over, so
 * that what it freed is free. Before that each try would look at all headers in vain, mostly; but a sweep frees slot by slot. */
static void give_way(seat *s) {
    enum { PATIENCE = 256 };
    for (int polls = 0; polls < PATIENCE && !crosses(s); polls++) {
        sched_yield();
    }
}

static bool make(seat *s, int reg, uint32_t label) {
    recycler_asked told;
    must(recycler_new(s->mutator, reg, label, &told), "new");
    return told.answer == RECYCLER_A_DONE;
}

static bool links(seat *s, int from, int field, int to) {
    recycler_asked told;
    must(recycler_put(s->mutator, from, field, to, &told), "put");
    return told.answer == RECYCLER_A_DONE;
}

static void link_to(seat *s, int from, int field, int to) {
    while (!links(s, from, field, to)) {
        give_way(s);
    }
}

static bool follow(seat *s, int reg, int field) {
    recycler_asked told;
    must(recycler_get(s->mutator, reg, reg, field, &told), "get");
    return told.answer == RECYCLER_A_OBJECT;
}

static void copy(seat *s, int to, int from) {
    recycler_asked told;
    must(recycler_copy(s->mutator, to, from, &told), "copy");
}

static void empty(seat *s, int reg) {
    recycler_asked told;
    must(recycler_null(s->mutator, reg, &told), "null");
}

static void drop(seat *s, int reg) {
    empty(s, reg);
}
