/* The heap of a Scheme over librecycler_c: its objects, the thread that collects, and how a thread begins and ends. */
#include "recycler.h"

static recycler heap = RECYCLER_CLOSED;

static void must(uint32_t code) {
    if (code != RECYCLER_OK)
        require(false, recycler_code_text(code));
}

/* ---- objects */

/* A thread that doesn't poll holds up the collector, so it polls while it waits too. Where a poll crosses, a collection is over. */
static bool poll_crosses(mutator *m) {
    uint32_t crossed;
    must(recycler_poll(m->handle, &crossed));
    return crossed != 0;
}

/* Where the heap or the log is full. What is garbage is free after a few collections, so where many don't help there is none. */
static void give_way(mutator *m, int round) {
    check(m, round < 500, "no slot is free, and no garbage is left to collect");
    for (int polls = 0; polls < 10000 && !poll_crosses(m); polls++)
        sched_yield();
}

static bool is_done(uint32_t code, const recycler_asked *told) {
    must(code);
    return told->answer == RECYCLER_A_DONE;
}

static void make(mutator *m, int reg, kind of, int number) {
    recycler_asked told;
    uint32_t whole = label_of_kind(of, number);
    for (int round = 0; !is_done((of < PAIR ? recycler_leaf : recycler_new)(m->handle, reg, whole, &told), &told); round++)
        give_way(m, round);
}

static void put(mutator *m, int into, int field, int from) {
    recycler_asked told;
    for (int round = 0; !is_done(recycler_put(m->handle, into, field, from, &told), &told); round++)
        give_way(m, round);
}

/* Whether there is something in the field. */
static bool get(mutator *m, int to, int from, int field) {
    recycler_asked told;
    must(recycler_get(m->handle, to, from, field, &told));
    return told.answer == RECYCLER_A_OBJECT;
}

static void copy(mutator *m, int to, int from) {
    recycler_asked told;
    must(recycler_copy(m->handle, to, from, &told));
}

static label label_of(mutator *m, int reg) {
    recycler_asked told;
    must(recycler_value(m->handle, reg, &told));
    return label_from(told.label);
}

static bool is_one(mutator *m, int a, int b) {
    recycler_asked told;
    must(recycler_same(m->handle, a, b, &told));
    return told.answer == RECYCLER_A_YES;
}

/* ---- the heap */

/* Register 0 of each mutator names one and the same object. */
static void open_heap(int slots) {
    const recycler_config config = { slots, FIELDS, REGISTERS, thread_count, 1024, 1, slots / 16, 16 };
    must(recycler_open(&heap, &config));
    must(recycler_notices(&heap, 256));
    must(recycler_start(&heap));
}

static void enter(mutator *m) {
    m->handle = &heap.mutators[m->number];
}

static void leave(mutator *m) {
    recycler_asked told;
    while (!is_done(recycler_leave(m->handle, &told), &told))
        sched_yield();
}

/* Collects for a while, keeps the tokens that were freed, and polls for a mutator that no thread carries on. */
static void collect(void) {
    recycler_turned turned;
    recycler_heard heard = { 1, 0 };
    uint32_t crossed;
    must(recycler_collect(&heap.collector, 200, &turned));
    while (heard.any) {
        must(recycler_hear(&heap.listener, &heard));
        label freed = label_from(heard.label);
        if (freed.of == TOKEN)
            keep_token(freed.number);
    }
    if (turned.what == RECYCLER_W_WAITING) {
        pthread_mutex_lock(&shared);
        if (states[turned.mutator - 1] < RUNS)
            must(recycler_poll(&heap.mutators[turned.mutator - 1], &crossed));
        pthread_mutex_unlock(&shared);
        sched_yield();
    } else if (turned.what == RECYCLER_W_NO_EPOCH || (turned.what == RECYCLER_W_COLLECTED && turned.freed == 0)) {
        nanosleep(&(struct timespec){ 0, 200000 }, NULL); /* since each collection spends an epoch */
    }
}

/* The answer is how many objects were made and freed. */
static total close_heap(void) {
    recycler_settled settled;
    recycler_totals_told totals;
    must(recycler_stop(&heap));
    must(recycler_settle(&heap, &settled));
    must(recycler_totals(&heap, &totals));
    must(recycler_close(&heap));
    return (total){ totals.born, totals.freed };
}
