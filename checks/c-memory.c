/* Refuses each allocation of recycler_open, recycler_notices, recycler_start and recycler_renew in turn, and looks at what is left; and
 * counts those of the other calls.
 * It is linked with malloc, realloc and free wrapped (-Wl,--wrap=malloc and so on). */
#include <stdio.h>
#include <stdlib.h>
#include <string.h>

#include "recycler.h"

enum { SLOTS = 8, MUTATORS = 3, LOG = 16, ROOM = 4 };

void *__real_malloc(size_t size);
void *__real_realloc(void *at, size_t size);
void __real_free(void *at);
void *__wrap_malloc(size_t size);
void *__wrap_realloc(void *at, size_t size);
void __wrap_free(void *at);

/* How many allocations were asked for since `refuse`, which of them is refused (0: none), and how many blocks are held. */
static long asked, refused, held;

static void refuse(long which) {
    asked = 0;
    refused = which;
}

void *__wrap_malloc(size_t size) {
    void *at = ++asked == refused ? NULL : __real_malloc(size);
    held += at != NULL;
    return at;
}

void *__wrap_realloc(void *at, size_t size) {
    void *to = ++asked == refused ? NULL : __real_realloc(at, size);
    held += at == NULL && to != NULL;
    return to;
}

void __wrap_free(void *at) {
    held -= at != NULL;
    __real_free(at);
}

static void must(int is_so, const char *what, int line) {
    if (!is_so) {
        printf("c-memory, line %d, allocation %ld refused: not so: %s\n", line, refused, what);
        exit(1);
    }
}

#define MUST(what) must((what), #what, __LINE__)

static uint32_t open_small(recycler *r) {
    const recycler_config config = { SLOTS, 2, 4, MUTATORS, LOG, 1, 0, 0 };
    return recycler_open(r, &config);
}

/* Opens a heap, and answers how many allocations that takes. One of them is refused before: then all is closed, and nothing is held. */
static long open_refused(recycler *r) {
    long takes;
    refuse(0);
    MUST(open_small(r) == RECYCLER_OK);
    takes = asked;
    MUST(recycler_close(r) == RECYCLER_OK && held == 0);
    for (long which = 1; which <= takes; which++) {
        uint32_t crossed;
        refuse(which);
        MUST(open_small(r) == RECYCLER_E_NO_MEMORY && asked == which && held == 0);
        MUST(recycler_close(r) == RECYCLER_E_CLOSED_HANDLE && recycler_start(r) == RECYCLER_E_CLOSED_HANDLE);
        for (int k = 0; k < RECYCLER_MOST_MUTATORS; k++) {
            MUST(recycler_poll(&r->mutators[k], &crossed) == RECYCLER_E_CLOSED_HANDLE);
        }
    }
    refuse(0);
    MUST(open_small(r) == RECYCLER_OK && asked == takes);
    return takes;
}

/* Asks for notices likewise. Where that is refused, none were asked for. */
static long notices_refused(recycler *r) {
    recycler_heard heard;
    long takes, rests = held;
    refuse(0);
    MUST(recycler_notices(r, ROOM) == RECYCLER_OK);
    takes = asked;
    MUST(recycler_close(r) == RECYCLER_OK && held == 0 && open_small(r) == RECYCLER_OK);
    for (long which = 1; which <= takes; which++) {
        refuse(which);
        MUST(recycler_notices(r, ROOM) == RECYCLER_E_NO_MEMORY && held == rests);
        MUST(recycler_hear(&r->listener, &heard) == RECYCLER_E_CLOSED_HANDLE);
    }
    refuse(0);
    MUST(recycler_notices(r, ROOM) == RECYCLER_OK && asked == takes);
    return takes;
}

/* Starts a heap likewise. Where that is refused it rests as before. */
static long start_refused(recycler *r) {
    recycler_totals_told before, after;
    long takes, rests = held;
    refuse(0);
    MUST(recycler_start(r) == RECYCLER_OK);
    takes = asked;
    MUST(recycler_stop(r) == RECYCLER_OK && held == rests && recycler_totals(r, &before) == RECYCLER_OK);
    for (long which = 1; which <= takes; which++) {
        uint32_t crossed;
        refuse(which);
        MUST(recycler_start(r) == RECYCLER_E_NO_MEMORY && held == rests && recycler_stop(r) == RECYCLER_E_RESTS);
        for (int k = 0; k < MUTATORS; k++) {
            MUST(recycler_poll(&r->mutators[k], &crossed) == RECYCLER_E_RESTS);
        }
        MUST(recycler_totals(r, &after) == RECYCLER_OK && memcmp(&before, &after, sizeof before) == 0);
    }
    refuse(0);
    MUST(recycler_start(r) == RECYCLER_OK && asked == takes);
    return takes;
}

/* Lets a heap begin anew likewise. Where that is refused it is as before, and else as many blocks are held as before. */
static long renew_refused(recycler *r) {
    recycler_totals_told before, after;
    long takes, rests = held;
    refuse(0);
    MUST(recycler_renew(r, SLOTS) == RECYCLER_OK && held == rests && recycler_totals(r, &before) == RECYCLER_OK);
    takes = asked;
    for (long which = 1; which <= takes; which++) {
        refuse(which);
        MUST(recycler_renew(r, SLOTS) == RECYCLER_E_NO_MEMORY && asked == which && held == rests);
        MUST(recycler_totals(r, &after) == RECYCLER_OK && memcmp(&before, &after, sizeof before) == 0);
    }
    refuse(0);
    MUST(recycler_renew(r, SLOTS) == RECYCLER_OK && asked == takes && held == rests);
    return takes;
}

/* What a running heap is asked, until five collections are complete. */
static void carry_on(recycler *r) {
    recycler_asked told;
    recycler_turned turned;
    recycler_heard heard;
    uint32_t crossed, collections = 0, labels = 0;
    for (uint32_t round = 0; round < 1000 && collections < 5; round++) {
        for (int k = 0; k < MUTATORS; k++) {
            recycler_handle *m = &r->mutators[k];
            MUST(recycler_new(m, 1, round, &told) == RECYCLER_OK && recycler_copy(m, 2, 1, &told) == RECYCLER_OK);
            MUST(recycler_put(m, 1, 0, 2, &told) == RECYCLER_OK && recycler_get(m, 3, 1, 0, &told) == RECYCLER_OK);
            MUST(recycler_value(m, 3, &told) == RECYCLER_OK && recycler_same(m, 1, 2, &told) == RECYCLER_OK);
            for (uint32_t reg = 1; reg < 4; reg++) {
                MUST(recycler_null(m, reg, &told) == RECYCLER_OK);
            }
            MUST(recycler_poll(m, &crossed) == RECYCLER_OK);
        }
        MUST(recycler_turn(&r->collector, &turned) == RECYCLER_OK);
        collections += turned.what == RECYCLER_W_COLLECTED;
        do {
            MUST(recycler_hear(&r->listener, &heard) == RECYCLER_OK);
            labels += heard.any;
        } while (heard.any);
    }
    MUST(collections == 5 && labels > 0);
    MUST(recycler_leave(&r->mutators[MUTATORS - 1], &told) == RECYCLER_OK);
}

int main(void) {
    recycler r = RECYCLER_CLOSED;
    recycler_settled settled;
    recycler_slot_told slot;
    recycler_totals_told totals;
    uint32_t taken;
    long opens = open_refused(&r), notices = notices_refused(&r), starts = start_refused(&r), renewals;
    refuse(1);
    carry_on(&r);
    MUST(recycler_stop(&r) == RECYCLER_OK && recycler_settle(&r, &settled) == RECYCLER_OK && settled.live == 1);
    MUST(recycler_slot(&r, 0, &slot) == RECYCLER_OK && recycler_taken(&r, &taken) == RECYCLER_OK && taken == 1);
    MUST(recycler_totals(&r, &totals) == RECYCLER_OK && totals.born == totals.freed + 1 && totals.born > SLOTS);
    MUST(asked == 0);
    renewals = renew_refused(&r);
    refuse(1);
    MUST(recycler_close(&r) == RECYCLER_OK && held == 0);
    MUST(asked == 0);
    printf("memory: each of %ld allocations of open, %ld of notices, %ld of start and %ld of renew refused, no other call takes any\n", opens,
           notices, starts, renewals);
    return 0;
}
