/* Each code that a wrong number or a wrong order of calls is answered, and what such calls leave. It prints a line where a code or what is
 * left is another one, and ends with 1. */
#include <stdio.h>
#include <string.h>

#include "recycler.h"

enum { SLOTS = 8, REGISTERS = 4, MUTATORS = 2, LOG = 64, LAST_EPOCH = 16777215, MARK = 0xA5 };

static int wrong = 0;

/* What refused calls are given to tell into. It is marked before each call. */
static union {
    recycler_turned turned;
    recycler_asked asked;
    recycler_settled settled;
    recycler_slot_told slot;
    recycler_totals_told totals;
    recycler_heard heard;
    uint32_t number;
} told;

static void complain(const char *call, const char *of) {
    printf("%s: %s\n", call, of);
    wrong = 1;
}

static int is_marked(void) {
    unsigned char marks[sizeof told];
    memset(marks, MARK, sizeof marks);
    return memcmp(&told, marks, sizeof told) == 0;
}

static void want(uint32_t code, uint32_t wanted, const char *call) {
    if (code != wanted) {
        printf("%s: code %u, wanted %u\n", call, (unsigned)code, (unsigned)wanted);
        wrong = 1;
    }
    if (code != RECYCLER_OK && !is_marked()) {
        complain(call, "refused, and it told something");
    }
    memset(&told, MARK, sizeof told);
}

#define WANT(call, code) want((call), (code), #call)

static void want_true(int is_so, const char *what) {
    if (!is_so) {
        complain(what, "not so");
    }
}

#define WANT_TRUE(what) want_true((what), #what)

static uint32_t open_with(recycler *r, uint32_t slots, uint32_t fields, uint32_t registers,
                          uint32_t mutators, uint32_t log_entries, uint32_t first_epoch) {
    const recycler_config config = { slots, fields, registers, mutators, log_entries, first_epoch, 0, 0 };
    return recycler_open(r, &config);
}

static uint32_t open_small(recycler *r, uint32_t first_epoch) {
    return open_with(r, SLOTS, 1, REGISTERS, MUTATORS, LOG, first_epoch);
}

/* What is seen of a heap at rest. */
typedef struct view {
    recycler_totals_told totals;
    recycler_slot_told slots[SLOTS];
    uint32_t taken;
} view;

static view look(recycler *r) {
    view seen;
    memset(&seen, 0, sizeof seen);
    WANT(recycler_totals(r, &seen.totals), RECYCLER_OK);
    WANT(recycler_taken(r, &seen.taken), RECYCLER_OK);
    for (uint32_t slot = 0; slot < SLOTS; slot++) {
        WANT(recycler_slot(r, slot, &seen.slots[slot]), RECYCLER_OK);
    }
    return seen;
}

static void want_same(const view *before, const view *after) {
    WANT_TRUE(memcmp(before, after, sizeof *before) == 0);
}

/* A poll and each command, with numbers that are in range, on a handle that they aren't for. */
static void want_commands(recycler_handle *handle, uint32_t code) {
    WANT(recycler_poll(handle, &told.number), code);
    WANT(recycler_new(handle, 1, 7, &told.asked), code);
    WANT(recycler_leaf(handle, 1, 7, &told.asked), code);
    WANT(recycler_null(handle, 0, &told.asked), code);
    WANT(recycler_copy(handle, 1, 0, &told.asked), code);
    WANT(recycler_get(handle, 1, 0, 0, &told.asked), code);
    WANT(recycler_put(handle, 0, 0, 0, &told.asked), code);
    WANT(recycler_value(handle, 0, &told.asked), code);
    WANT(recycler_same(handle, 0, 1, &told.asked), code);
    WANT(recycler_leave(handle, &told.asked), code);
}

/* Each number just out of its range: below, above, and two at once, of which the first is named. */
static void want_numbers(recycler *r) {
    WANT(open_with(r, 0, 1, 4, 2, 64, 1), RECYCLER_E_SLOTS);
    WANT(open_with(r, 8, 0, 4, 2, 64, 1), RECYCLER_E_FIELDS);
    WANT(open_with(r, 8, 1, 0, 2, 64, 1), RECYCLER_E_REGISTERS);
    WANT(open_with(r, 8, 1, 4, 0, 64, 1), RECYCLER_E_MUTATORS);
    WANT(open_with(r, 8, 1, 4, 2, 0, 1), RECYCLER_E_LOG_ENTRIES);
    WANT(open_with(r, 8, 1, 4, 2, 64, 0), RECYCLER_E_FIRST_EPOCH);
    WANT(open_with(r, 65536, 1, 4, 2, 64, 1), RECYCLER_E_SLOTS);
    WANT(open_with(r, 8, 17, 4, 2, 64, 1), RECYCLER_E_FIELDS);
    WANT(open_with(r, 8, 1, 65, 2, 64, 1), RECYCLER_E_REGISTERS);
    WANT(open_with(r, 8, 1, 4, RECYCLER_MOST_MUTATORS + 1, 64, 1), RECYCLER_E_MUTATORS);
    WANT(open_with(r, 8, 1, 4, 2, 262144, 1), RECYCLER_E_LOG_ENTRIES);
    WANT(open_with(r, 8, 1, 4, 2, 64, LAST_EPOCH + 1), RECYCLER_E_FIRST_EPOCH);
    WANT(open_with(r, 0, 0, 0, 0, 0, 0), RECYCLER_E_SLOTS);
    WANT(open_with(r, 8, 1, 4, UINT32_MAX, UINT32_MAX, 0), RECYCLER_E_MUTATORS);
}

/* Heaps with the least and the greatest numbers. */
static void open_bounds(recycler *r) {
    static const uint32_t most[6] = { 65535, 16, 64, RECYCLER_MOST_MUTATORS, 262143, LAST_EPOCH };
    for (int part = -1; part < 6; part++) {
        uint32_t n[6] = { 1, 1, 1, 1, 1, 1 };
        if (part >= 0) {
            n[part] = most[part];
        }
        WANT(open_with(r, n[0], n[1], n[2], n[3], n[4], n[5]), RECYCLER_OK);
        WANT(recycler_close(r), RECYCLER_OK);
    }
}

static void while_closed(recycler *r) {
    WANT(recycler_close(r), RECYCLER_E_CLOSED_HANDLE);
    WANT(recycler_start(r), RECYCLER_E_CLOSED_HANDLE);
    WANT(recycler_stop(r), RECYCLER_E_CLOSED_HANDLE);
    WANT(recycler_settle(r, &told.settled), RECYCLER_E_CLOSED_HANDLE);
    WANT(recycler_renew(r, SLOTS), RECYCLER_E_CLOSED_HANDLE);
    WANT(recycler_renew(r, 0), RECYCLER_E_CLOSED_HANDLE);
    WANT(recycler_slot(r, 0, &told.slot), RECYCLER_E_CLOSED_HANDLE);
    WANT(recycler_taken(r, &told.number), RECYCLER_E_CLOSED_HANDLE);
    WANT(recycler_totals(r, &told.totals), RECYCLER_E_CLOSED_HANDLE);
    WANT(recycler_turn(&r->collector, &told.turned), RECYCLER_E_CLOSED_HANDLE);
    WANT(recycler_collect(&r->collector, 1, &told.turned), RECYCLER_E_CLOSED_HANDLE);
    WANT(recycler_turn(&r->mutators[0], &told.turned), RECYCLER_E_CLOSED_HANDLE);
    WANT(recycler_notices(r, 4), RECYCLER_E_CLOSED_HANDLE);
    WANT(recycler_hear(&r->listener, &told.heard), RECYCLER_E_CLOSED_HANDLE);
    want_commands(&r->collector, RECYCLER_E_CLOSED_HANDLE);
    want_commands(&r->mutators[0], RECYCLER_E_CLOSED_HANDLE);
    want_numbers(r);
    WANT(recycler_close(r), RECYCLER_E_CLOSED_HANDLE);
}

static void while_at_rest(recycler *r) {
    view before = look(r), after;
    WANT(open_small(r, 1), RECYCLER_E_OPEN_ALREADY);
    WANT(open_with(r, 0, 1, 4, 2, 64, 1), RECYCLER_E_OPEN_ALREADY);
    WANT(recycler_stop(r), RECYCLER_E_RESTS);
    WANT(recycler_turn(&r->collector, &told.turned), RECYCLER_E_RESTS);
    WANT(recycler_collect(&r->collector, 1, &told.turned), RECYCLER_E_RESTS);
    WANT(recycler_turn(&r->mutators[0], &told.turned), RECYCLER_E_RESTS);
    want_commands(&r->collector, RECYCLER_E_RESTS);
    want_commands(&r->mutators[0], RECYCLER_E_RESTS);
    want_commands(&r->mutators[MUTATORS - 1], RECYCLER_E_RESTS);
    want_commands(&r->mutators[MUTATORS], RECYCLER_E_CLOSED_HANDLE);
    WANT(recycler_notices(r, 0), RECYCLER_E_RANGE);
    WANT(recycler_notices(r, 65536), RECYCLER_E_RANGE);
    WANT(recycler_hear(&r->listener, &told.heard), RECYCLER_E_CLOSED_HANDLE);
    WANT(recycler_renew(r, 0), RECYCLER_E_SLOTS);
    WANT(recycler_renew(r, 65536), RECYCLER_E_SLOTS);
    WANT(recycler_renew(r, UINT32_MAX), RECYCLER_E_SLOTS);
    WANT(recycler_slot(r, SLOTS, &told.slot), RECYCLER_E_RANGE);
    WANT(recycler_slot(r, UINT32_MAX, &told.slot), RECYCLER_E_RANGE);
    after = look(r);
    want_same(&before, &after);
}

/* Nothing here changes the heap: what it was at rest it has to be at rest again. */
static void while_it_runs(recycler *r) {
    recycler_asked asked;
    recycler_handle *m = &r->mutators[0];
    WANT(open_small(r, 1), RECYCLER_E_OPEN_ALREADY);
    WANT(recycler_start(r), RECYCLER_E_RUNS);
    WANT(recycler_close(r), RECYCLER_E_RUNS);
    WANT(recycler_notices(r, 4), RECYCLER_E_RUNS);
    WANT(recycler_hear(&r->collector, &told.heard), RECYCLER_E_OTHER_HANDLE);
    WANT(recycler_hear(m, &told.heard), RECYCLER_E_OTHER_HANDLE);
    WANT(recycler_settle(r, &told.settled), RECYCLER_E_RUNS);
    WANT(recycler_renew(r, SLOTS), RECYCLER_E_RUNS);
    WANT(recycler_slot(r, 0, &told.slot), RECYCLER_E_RUNS);
    WANT(recycler_taken(r, &told.number), RECYCLER_E_RUNS);
    WANT(recycler_totals(r, &told.totals), RECYCLER_E_RUNS);
    WANT(recycler_turn(m, &told.turned), RECYCLER_E_OTHER_HANDLE);
    WANT(recycler_collect(m, 1, &told.turned), RECYCLER_E_OTHER_HANDLE);
    WANT(recycler_turn(&r->mutators[MUTATORS], &told.turned), RECYCLER_E_CLOSED_HANDLE);
    want_commands(&r->collector, RECYCLER_E_OTHER_HANDLE);
    want_commands(&r->mutators[MUTATORS], RECYCLER_E_CLOSED_HANDLE);
    WANT(recycler_new(m, REGISTERS, 1, &told.asked), RECYCLER_E_RANGE);
    WANT(recycler_leaf(m, REGISTERS, 1, &told.asked), RECYCLER_E_RANGE);
    WANT(recycler_null(m, REGISTERS, &told.asked), RECYCLER_E_RANGE);
    WANT(recycler_null(m, 256, &told.asked), RECYCLER_E_RANGE);
    WANT(recycler_copy(m, 0, REGISTERS, &told.asked), RECYCLER_E_RANGE);
    WANT(recycler_copy(m, REGISTERS, 0, &told.asked), RECYCLER_E_RANGE);
    WANT(recycler_get(m, 1, 0, 1, &told.asked), RECYCLER_E_RANGE);
    WANT(recycler_get(m, 1, 0, 256, &told.asked), RECYCLER_E_RANGE);
    WANT(recycler_get(m, REGISTERS, 0, 0, &told.asked), RECYCLER_E_RANGE);
    WANT(recycler_get(m, 1, REGISTERS, 0, &told.asked), RECYCLER_E_RANGE);
    WANT(recycler_put(m, 0, 1, 0, &told.asked), RECYCLER_E_RANGE);
    WANT(recycler_put(m, REGISTERS, 0, 0, &told.asked), RECYCLER_E_RANGE);
    WANT(recycler_put(m, 0, 0, REGISTERS, &told.asked), RECYCLER_E_RANGE);
    WANT(recycler_value(m, REGISTERS, &told.asked), RECYCLER_E_RANGE);
    WANT(recycler_value(m, UINT32_MAX, &told.asked), RECYCLER_E_RANGE);
    WANT(recycler_same(m, 0, REGISTERS, &told.asked), RECYCLER_E_RANGE);
    WANT(recycler_same(m, REGISTERS, 0, &told.asked), RECYCLER_E_RANGE);
    WANT(recycler_value(m, 0, &asked), RECYCLER_OK);
    WANT_TRUE(asked.answer == RECYCLER_A_VALUE && asked.label == 0);
    WANT(recycler_value(m, 1, &asked), RECYCLER_OK);
    WANT_TRUE(asked.answer == RECYCLER_A_NO_OBJECT);
}

/* A heap goes round: refused calls leave it as it was, running or not. */
static void go_round(recycler *r) {
    recycler_settled settled;
    recycler_turned turned;
    view before, after;
    WANT(open_small(r, 1), RECYCLER_OK);
    while_at_rest(r);
    before = look(r);
    WANT(recycler_start(r), RECYCLER_OK);
    while_it_runs(r);
    WANT(recycler_stop(r), RECYCLER_OK);
    after = look(r);
    want_same(&before, &after);
    WANT(recycler_start(r), RECYCLER_OK);
    WANT(recycler_turn(&r->collector, &turned), RECYCLER_OK);
    WANT(recycler_stop(r), RECYCLER_OK);
    /* with the collection that this turn began, settling completes four, and it requests three epochs */
    before = look(r);
    WANT(recycler_settle(r, &settled), RECYCLER_OK);
    after = look(r);
    WANT_TRUE(settled.epochs == 4 && after.totals.epoch == before.totals.epoch + 3);
    WANT(recycler_settle(r, &settled), RECYCLER_OK);
    WANT_TRUE(settled.epochs == 3 && settled.freed == 0 && settled.live == 1);
    WANT(recycler_start(r), RECYCLER_OK);
    WANT(recycler_stop(r), RECYCLER_OK);
    while_at_rest(r);
    WANT(recycler_close(r), RECYCLER_OK);
}

/* A leaf has fields that are null for good, and is freed as any other object. */
static void make_leaf(recycler *r) {
    recycler_handle *m = &r->mutators[0];
    recycler_asked asked;
    recycler_settled settled;
    WANT(open_small(r, 1), RECYCLER_OK);
    WANT(recycler_start(r), RECYCLER_OK);
    WANT(recycler_leaf(m, 1, 9, &asked), RECYCLER_OK);
    WANT_TRUE(asked.answer == RECYCLER_A_DONE);
    WANT(recycler_value(m, 1, &asked), RECYCLER_OK);
    WANT_TRUE(asked.answer == RECYCLER_A_VALUE && asked.label == 9);
    WANT(recycler_put(m, 1, 0, 0, &asked), RECYCLER_OK);
    WANT_TRUE(asked.answer == RECYCLER_A_NO_FIELD);
    WANT(recycler_get(m, 2, 1, 0, &asked), RECYCLER_OK);
    WANT_TRUE(asked.answer == RECYCLER_A_NULL);
    WANT(recycler_put(m, 0, 0, 1, &asked), RECYCLER_OK);
    WANT_TRUE(asked.answer == RECYCLER_A_DONE);
    WANT(recycler_null(m, 1, &asked), RECYCLER_OK);
    WANT(recycler_stop(r), RECYCLER_OK);
    WANT(recycler_settle(r, &settled), RECYCLER_OK);
    WANT_TRUE(settled.live == 2);
    WANT(recycler_start(r), RECYCLER_OK);
    WANT(recycler_put(m, 0, 0, 1, &asked), RECYCLER_OK);
    WANT(recycler_stop(r), RECYCLER_OK);
    WANT(recycler_settle(r, &settled), RECYCLER_OK);
    WANT_TRUE(settled.live == 1 && settled.freed == 1);
    WANT(recycler_close(r), RECYCLER_OK);
}

/* Turns until a turn comes to something else than that it moved or waits for a mutator, which polls then. */
static recycler_turned collect(recycler *r) {
    recycler_turned turned;
    uint32_t crossed;
    do {
        WANT(recycler_collect(&r->collector, 1000, &turned), RECYCLER_OK);
        if (turned.what == RECYCLER_W_WAITING) {
            WANT(recycler_poll(&r->mutators[turned.mutator - 1], &crossed), RECYCLER_OK);
        }
    } while (turned.what == RECYCLER_W_MOVED || turned.what == RECYCLER_W_WAITING);
    return turned;
}

/* Two objects are freed, and there is room for one label. Who listens is told each once; starting again keeps a label that is held. */
static void hear_all(recycler *r) {
    recycler_asked asked;
    recycler_heard heard;
    WANT(open_small(r, 1), RECYCLER_OK);
    WANT(recycler_notices(r, 1), RECYCLER_OK);
    WANT(recycler_notices(r, 1), RECYCLER_E_OPEN_ALREADY);
    WANT(recycler_start(r), RECYCLER_OK);
    want_commands(&r->listener, RECYCLER_E_OTHER_HANDLE);
    WANT(recycler_turn(&r->listener, &told.turned), RECYCLER_E_OTHER_HANDLE);
    WANT(recycler_collect(&r->listener, 1, &told.turned), RECYCLER_E_OTHER_HANDLE);
    for (uint32_t label = 1; label <= 2; label++) {
        WANT(recycler_new(&r->mutators[0], 1, label, &asked), RECYCLER_OK);
    }
    WANT(recycler_null(&r->mutators[0], 1, &asked), RECYCLER_OK);
    WANT_TRUE(collect(r).what == RECYCLER_W_COLLECTED);
    WANT_TRUE(collect(r).what == RECYCLER_W_HELD);
    WANT(recycler_stop(r), RECYCLER_OK);
    WANT(recycler_start(r), RECYCLER_OK);
    WANT_TRUE(collect(r).what == RECYCLER_W_HELD);
    WANT(recycler_hear(&r->listener, &heard), RECYCLER_OK);
    WANT_TRUE(heard.any == 1 && heard.label == 1);
    WANT_TRUE(collect(r).what == RECYCLER_W_COLLECTED);
    WANT(recycler_stop(r), RECYCLER_OK);
    WANT(recycler_hear(&r->listener, &heard), RECYCLER_OK);
    WANT_TRUE(heard.any == 1 && heard.label == 2);
    WANT(recycler_hear(&r->listener, &heard), RECYCLER_OK);
    WANT_TRUE(heard.any == 0 && heard.label == 0);
    WANT(recycler_close(r), RECYCLER_OK);
    WANT(recycler_hear(&r->listener, &told.heard), RECYCLER_E_CLOSED_HANDLE);
}

/* Both mutators leave, the first once the log that it handed over is collected. They are asked nothing then, nor after a stop and a start. */
static void leave_all(recycler *r) {
    recycler_handle *first = &r->mutators[0], *second = &r->mutators[1];
    recycler_asked asked;
    recycler_settled settled;
    recycler_turned turned;
    uint32_t crossed;
    WANT(open_small(r, 1), RECYCLER_OK);
    WANT(recycler_start(r), RECYCLER_OK);
    WANT(recycler_turn(&r->collector, &turned), RECYCLER_OK);
    WANT(recycler_poll(first, &crossed), RECYCLER_OK);
    WANT(recycler_leave(first, &asked), RECYCLER_OK);
    WANT_TRUE(crossed == 2 && asked.answer == RECYCLER_A_NOT_YET);
    WANT(recycler_leave(second, &asked), RECYCLER_OK);
    WANT_TRUE(asked.answer == RECYCLER_A_DONE);
    want_commands(second, RECYCLER_E_LEFT);
    WANT(recycler_null(second, REGISTERS, &told.asked), RECYCLER_E_LEFT);
    for (int turn = 0; turn < 100 && turned.what != RECYCLER_W_COLLECTED; turn++) {
        WANT(recycler_turn(&r->collector, &turned), RECYCLER_OK);
        WANT_TRUE(turned.what != RECYCLER_W_WAITING);
    }
    WANT(recycler_leave(first, &asked), RECYCLER_OK);
    WANT_TRUE(asked.answer == RECYCLER_A_DONE);
    WANT(recycler_stop(r), RECYCLER_OK);
    want_commands(first, RECYCLER_E_RESTS);
    WANT(recycler_settle(r, &settled), RECYCLER_OK);
    WANT_TRUE(settled.live == 0);
    WANT(recycler_start(r), RECYCLER_OK);
    want_commands(first, RECYCLER_E_LEFT);
    want_commands(second, RECYCLER_E_LEFT);
    WANT(recycler_stop(r), RECYCLER_OK);
    WANT(recycler_close(r), RECYCLER_OK);
}

/* A heap of two objects begins anew in two slots, in one too few, and in as many as there may be. What registers name stays. */
static void begin_anew(recycler *r) {
    recycler_handle *m = &r->mutators[0];
    recycler_asked asked;
    recycler_slot_told slot;
    view before, after;
    WANT(open_small(r, 7), RECYCLER_OK);
    WANT(recycler_start(r), RECYCLER_OK);
    WANT(recycler_new(m, 1, 5, &asked), RECYCLER_OK);
    WANT(recycler_put(m, 1, 0, 0, &asked), RECYCLER_OK);
    WANT(recycler_leaf(m, 2, 6, &asked), RECYCLER_OK);
    WANT(recycler_null(m, 2, &asked), RECYCLER_OK);
    WANT(recycler_leave(&r->mutators[1], &asked), RECYCLER_OK);
    WANT_TRUE(asked.answer == RECYCLER_A_DONE);
    WANT(recycler_stop(r), RECYCLER_OK);
    before = look(r);
    WANT(recycler_renew(r, 1), RECYCLER_E_FEW_SLOTS);
    after = look(r);
    want_same(&before, &after);
    WANT(recycler_renew(r, 2), RECYCLER_OK);
    WANT(recycler_slot(r, 2, &told.slot), RECYCLER_E_RANGE);
    WANT(recycler_renew(r, 65535), RECYCLER_OK);
    WANT(recycler_slot(r, 65534, &slot), RECYCLER_OK);
    WANT_TRUE(slot.taken == 0);
    after = look(r);
    WANT_TRUE(after.taken == 2 && after.totals.epoch == 1 && after.totals.born == 2);
    WANT_TRUE(after.slots[0].label == 0 && after.slots[0].count == 2 && after.slots[1].label == 5 && after.slots[1].count == 1);
    WANT(recycler_start(r), RECYCLER_OK);
    WANT(recycler_get(m, 3, 1, 0, &asked), RECYCLER_OK);
    WANT_TRUE(asked.answer == RECYCLER_A_OBJECT);
    WANT(recycler_same(m, 3, 0, &asked), RECYCLER_OK);
    WANT_TRUE(asked.answer == RECYCLER_A_YES);
    WANT(recycler_value(m, 2, &asked), RECYCLER_OK);
    WANT_TRUE(asked.answer == RECYCLER_A_NO_OBJECT);
    /* the mutator that had left is there again */
    WANT(recycler_value(&r->mutators[1], 0, &asked), RECYCLER_OK);
    WANT_TRUE(asked.answer == RECYCLER_A_NO_OBJECT);
    WANT(recycler_stop(r), RECYCLER_OK);
    WANT(recycler_close(r), RECYCLER_OK);
}

/* Turns until no epoch is left, and answers how many collections were completed. Each mutator polls where it is waited for. */
static uint32_t spend(recycler *r) {
    recycler_turned turned;
    uint32_t crossed, collections = 0;
    turned.what = RECYCLER_W_MOVED;
    for (int turn = 0; turn < 1000 && turned.what != RECYCLER_W_NO_EPOCH; turn++) {
        WANT(recycler_turn(&r->collector, &turned), RECYCLER_OK);
        if (turned.what == RECYCLER_W_WAITING) {
            WANT(recycler_poll(&r->mutators[turned.mutator - 1], &crossed), RECYCLER_OK);
        }
        collections += turned.what == RECYCLER_W_COLLECTED;
    }
    return collections;
}

/* With no epoch left the mutator goes on until each slot is taken, and then until its log is full. No turn and no poll changes anything. */
static void use_up(recycler *r) {
    recycler_handle *m = &r->mutators[0];
    recycler_turned turned;
    recycler_asked asked;
    uint32_t crossed;
    for (uint32_t made = 1; made <= LOG + 1; made++) {
        uint32_t answer = made <= LOG ? RECYCLER_A_DONE : RECYCLER_A_LOG_FULL;
        if (made < SLOTS) {
            WANT(recycler_new(m, 1, made, &asked), RECYCLER_OK);
        } else {
            WANT(recycler_put(m, 1, 0, made % REGISTERS, &asked), RECYCLER_OK);
        }
        WANT_TRUE(asked.answer == answer);
        WANT(recycler_turn(&r->collector, &turned), RECYCLER_OK);
        WANT_TRUE(turned.what == RECYCLER_W_NO_EPOCH);
        WANT(recycler_poll(m, &crossed), RECYCLER_OK);
        WANT_TRUE(crossed == 0);
        if (made == SLOTS) {
            WANT(recycler_new(m, 1, made, &asked), RECYCLER_OK);
            WANT_TRUE(asked.answer == RECYCLER_A_FULL);
        }
    }
}

/* A heap with two epochs left: settling wants four left. */
static void without_epochs(recycler *r) {
    recycler_settled settled;
    view before, after;
    WANT(open_small(r, LAST_EPOCH - 2), RECYCLER_OK);
    before = look(r);
    WANT(recycler_settle(r, &told.settled), RECYCLER_E_EPOCHS_SPENT);
    after = look(r);
    want_same(&before, &after);
    WANT(recycler_start(r), RECYCLER_OK);
    WANT_TRUE(spend(r) == 2);
    use_up(r);
    WANT(recycler_stop(r), RECYCLER_OK);
    before = look(r);
    WANT_TRUE(before.taken == SLOTS && before.totals.freed == 0 && before.totals.epoch == LAST_EPOCH);
    WANT(recycler_settle(r, &told.settled), RECYCLER_E_EPOCHS_SPENT);
    WANT(recycler_start(r), RECYCLER_OK);
    WANT(recycler_stop(r), RECYCLER_OK);
    after = look(r);
    want_same(&before, &after);
    /* it begins anew, and then it has them all again */
    WANT(recycler_renew(r, SLOTS), RECYCLER_OK);
    after = look(r);
    WANT_TRUE(after.totals.epoch == 1 && after.totals.freed == 0 && after.totals.born == after.taken && after.taken < SLOTS);
    WANT(recycler_settle(r, &settled), RECYCLER_OK);
    WANT_TRUE(settled.freed == 0 && settled.live == after.taken);
    WANT(recycler_close(r), RECYCLER_OK);
    /* with four epochs left a heap is settled once */
    WANT(open_small(r, LAST_EPOCH - 4), RECYCLER_OK);
    WANT(recycler_settle(r, &told.settled), RECYCLER_OK);
    WANT(recycler_settle(r, &told.settled), RECYCLER_E_EPOCHS_SPENT);
    WANT(recycler_close(r), RECYCLER_OK);
    WANT(open_small(r, LAST_EPOCH - 3), RECYCLER_OK);
    WANT(recycler_settle(r, &told.settled), RECYCLER_E_EPOCHS_SPENT);
    WANT(recycler_close(r), RECYCLER_OK);
}

int main(void) {
    recycler r = RECYCLER_CLOSED;
    memset(&told, MARK, sizeof told);
    while_closed(&r);
    open_bounds(&r);
    go_round(&r);
    while_closed(&r);
    make_leaf(&r);
    hear_all(&r);
    leave_all(&r);
    while_closed(&r);
    begin_anew(&r);
    while_closed(&r);
    /* bytes that are all zero are closed too */
    memset(&r, 0, sizeof r);
    while_closed(&r);
    without_epochs(&r);
    while_closed(&r);
    return wrong;
}
