/* c-random SEEDS [FIRST]: calls of the C library at random, by seed, beside a heap that never frees. That heap is written from recycler.h
 * alone. One thread carries all handles. After each call the code, the answer and what was told are compared; after settling, each slot
 * with its label and its true count. It prints how many calls were made, or the first that isn't as it should be, and ends with 1. */
#include <inttypes.h>
#include <stdio.h>
#include <stdlib.h>
#include <string.h>

#include "recycler.h"

enum { CALLS = 120, SLOTS = 12, FIELDS = 3, REGISTERS = 5, MUTATORS = 3, LOG = 24, OBJECTS = 4096, NONE = -1 };
enum { LAST_EPOCH = 16777215 };

/* An object of the heap that never frees; its label is its index. */
typedef struct object {
    bool leaf, heard;
    int fields[FIELDS];
} object;

static struct {
    recycler_config config;
    object objects[OBJECTS];
    int count;
    int registers[MUTATORS][REGISTERS];
    uint32_t logged[MUTATORS]; /* entries since the last poll that crossed */
    bool left[MUTATORS];
    bool runs, listens;
    uint64_t born, freed; /* since the opening or the last renewal; `freed` as collections told it */
} model;

static recycler heap = RECYCLER_CLOSED;
static uint64_t seed, state, calls;
static const char *call = "";

static uint32_t below(uint32_t bound) {
    state ^= state << 13;
    state ^= state >> 7;
    state ^= state << 17;
    return (uint32_t)((state >> 11) % bound);
}

static void want(bool is_so, const char *what) {
    if (!is_so) {
        printf("seed %" PRIu64 ", call %" PRIu64 ", %s: %s\n", seed, calls, call, what);
        exit(1);
    }
}

#define WANT(what) want((what), #what)

/* Whether the call was made: its code is this one. */
static bool made(uint32_t code, uint32_t wanted) {
    calls++;
    if (code != wanted) {
        printf("it came to `%s`, wanted `%s`\n", recycler_code_text(code), recycler_code_text(wanted));
        want(false, "the code");
    }
    return code == RECYCLER_OK;
}

/* Marks what registers reach, and counts the references to each object in reach. Returns how many objects are in reach. */
static int reach(bool *reached, uint64_t *references) {
    static int todo[OBJECTS];
    int found = 0;
    memset(reached, 0, sizeof(bool) * (size_t)model.count);
    memset(references, 0, sizeof(uint64_t) * (size_t)model.count);
    for (uint32_t m = 0; m < model.config.mutators; m++) {
        for (uint32_t reg = 0; reg < model.config.registers; reg++) {
            const int to = model.registers[m][reg];
            if (to != NONE) {
                references[to]++;
                if (!reached[to]) {
                    reached[to] = true;
                    todo[found++] = to;
                }
            }
        }
    }
    for (int next = 0; next < found; next++) {
        for (uint32_t field = 0; field < model.config.fields; field++) {
            const int to = model.objects[todo[next]].fields[field];
            if (to != NONE) {
                references[to]++;
                if (!reached[to]) {
                    reached[to] = true;
                    todo[found++] = to;
                }
            }
        }
    }
    return found;
}

static int new_object(bool leaf) {
    object *one = &model.objects[model.count];
    want(model.count < OBJECTS, "more objects than this program has room for");
    one->leaf = leaf;
    one->heard = false;
    for (int field = 0; field < FIELDS; field++) {
        one->fields[field] = NONE;
    }
    return model.count++;
}

/* A number below the bound, and once in a while the bound itself, which is out of range. */
static uint32_t number(uint32_t bound, bool *fits) {
    const uint32_t it = below(40) == 0 ? bound : below(bound);
    *fits = *fits && it < bound;
    return it;
}

/* The code that a call of this mutator has to come to. */
static uint32_t code_of(uint32_t m, bool fits) {
    return !model.runs ? RECYCLER_E_RESTS : model.left[m] ? RECYCLER_E_LEFT : fits ? RECYCLER_OK : RECYCLER_E_RANGE;
}

/* Whether no slot is free, as the heap at rest tells. Then it runs again. */
static bool is_full(void) {
    uint32_t taken = 0;
    WANT(recycler_stop(&heap) == RECYCLER_OK);
    WANT(recycler_taken(&heap, &taken) == RECYCLER_OK);
    WANT(recycler_start(&heap) == RECYCLER_OK);
    return taken == model.config.slots;
}

static void birth(uint32_t m, bool leaf) {
    recycler_asked told;
    bool fits = true;
    const uint32_t reg = number(model.config.registers, &fits), label = (uint32_t)model.count;
    const uint32_t code = leaf ? recycler_leaf(&heap.mutators[m], reg, label, &told) : recycler_new(&heap.mutators[m], reg, label, &told);
    call = leaf ? "leaf" : "new";
    if (!made(code, code_of(m, fits))) {
        return;
    }
    switch (told.answer) {
    case RECYCLER_A_DONE:
        WANT(model.logged[m] < model.config.log_entries);
        model.registers[m][reg] = new_object(leaf);
        model.logged[m]++;
        model.born++;
        break;
    case RECYCLER_A_FULL:
        WANT(is_full());
        break;
    case RECYCLER_A_BUSY:
        WANT(told.before % 2 == 1 || told.after > told.before);
        break;
    default:
        WANT(told.answer == RECYCLER_A_LOG_FULL);
        WANT(model.logged[m] == model.config.log_entries);
    }
}

static void put(uint32_t m) {
    recycler_asked told;
    bool fits = true;
    const uint32_t src = number(model.config.registers, &fits), field = number(model.config.fields, &fits),
                   val = number(model.config.registers, &fits);
    call = "put";
    if (!made(recycler_put(&heap.mutators[m], src, field, val, &told), code_of(m, fits))) {
        return;
    }
    const int to = model.registers[m][src];
    WANT((told.answer == RECYCLER_A_NO_OBJECT) == (to == NONE));
    if (to != NONE) {
        const bool has_room = model.logged[m] < model.config.log_entries;
        WANT(told.answer == (!has_room ? RECYCLER_A_LOG_FULL : model.objects[to].leaf ? RECYCLER_A_NO_FIELD : RECYCLER_A_DONE));
        if (told.answer == RECYCLER_A_DONE) {
            model.objects[to].fields[field] = model.registers[m][val];
            model.logged[m]++;
        }
    }
}

static void get(uint32_t m) {
    recycler_asked told;
    bool fits = true;
    const uint32_t dst = number(model.config.registers, &fits), src = number(model.config.registers, &fits),
                   field = number(model.config.fields, &fits);
    call = "get";
    if (!made(recycler_get(&heap.mutators[m], dst, src, field, &told), code_of(m, fits))) {
        return;
    }
    const int from = model.registers[m][src];
    if (from == NONE) {
        WANT(told.answer == RECYCLER_A_NO_OBJECT);
    } else {
        model.registers[m][dst] = model.objects[from].fields[field];
        WANT(told.answer == (model.registers[m][dst] == NONE ? RECYCLER_A_NULL : RECYCLER_A_OBJECT));
    }
}

static void plain(uint32_t m) {
    recycler_asked told;
    bool fits = true;
    const uint32_t a = number(model.config.registers, &fits), which = below(4);
    if (which == 0) {
        call = "null";
        if (made(recycler_null(&heap.mutators[m], a, &told), code_of(m, fits))) {
            WANT(told.answer == RECYCLER_A_DONE);
            model.registers[m][a] = NONE;
        }
    } else if (which == 1) {
        call = "value";
        if (made(recycler_value(&heap.mutators[m], a, &told), code_of(m, fits))) {
            const int to = model.registers[m][a];
            WANT(told.answer == (to == NONE ? RECYCLER_A_NO_OBJECT : RECYCLER_A_VALUE));
            WANT(told.label == (to == NONE ? 0 : (uint32_t)to));
        }
    } else {
        const uint32_t b = number(model.config.registers, &fits);
        call = which == 2 ? "copy" : "same";
        if (which == 2 && made(recycler_copy(&heap.mutators[m], a, b, &told), code_of(m, fits))) {
            WANT(told.answer == RECYCLER_A_DONE);
            model.registers[m][a] = model.registers[m][b];
        } else if (which == 3 && made(recycler_same(&heap.mutators[m], a, b, &told), code_of(m, fits))) {
            WANT(told.answer == (model.registers[m][a] == model.registers[m][b] ? RECYCLER_A_YES : RECYCLER_A_NO));
        }
    }
}

static void poll_or_leave(uint32_t m) {
    recycler_asked told;
    uint32_t crossed;
    if (below(25) > 0) {
        call = "poll";
        if (made(recycler_poll(&heap.mutators[m], &crossed), code_of(m, true)) && crossed > 0) {
            model.logged[m] = 0;
        }
        return;
    }
    call = "leave";
    if (made(recycler_leave(&heap.mutators[m], &told), code_of(m, true)) && told.answer != RECYCLER_A_NOT_YET) {
        WANT(told.answer == RECYCLER_A_DONE);
        model.left[m] = true;
        for (int reg = 0; reg < REGISTERS; reg++) {
            model.registers[m][reg] = NONE;
        }
    }
}

static void collect(void) {
    recycler_turned told;
    const uint32_t turns = below(60), code = model.runs ? RECYCLER_OK : RECYCLER_E_RESTS;
    call = "collect";
    if (!made(below(4) ? recycler_collect(&heap.collector, turns, &told) : recycler_turn(&heap.collector, &told), code)) {
        return;
    }
    if (told.what == RECYCLER_W_COLLECTED) {
        model.freed += told.freed;
        WANT(told.epoch >= model.config.first_epoch && told.epoch <= LAST_EPOCH);
    } else if (told.what == RECYCLER_W_WAITING) {
        WANT(told.mutator >= 1 && told.mutator <= model.config.mutators && !model.left[told.mutator - 1]);
    } else {
        WANT(told.what == RECYCLER_W_MOVED || told.what == RECYCLER_W_NO_EPOCH || (told.what == RECYCLER_W_HELD && model.listens));
    }
}

/* Each label that is heard is of an object that no register reaches, and is heard once. */
static void hear(void) {
    static bool reached[OBJECTS];
    static uint64_t references[OBJECTS];
    recycler_heard told;
    call = "hear";
    if (made(recycler_hear(&heap.listener, &told), model.listens ? RECYCLER_OK : RECYCLER_E_CLOSED_HANDLE) && told.any) {
        reach(reached, references);
        WANT(told.label < (uint32_t)model.count && !reached[told.label] && !model.objects[told.label].heard);
        model.objects[told.label].heard = true;
    }
}

/* Just what registers reach holds slots, with true counts. */
static void look(void) {
    static bool reached[OBJECTS], seen[OBJECTS];
    static uint64_t references[OBJECTS];
    recycler_slot_told told;
    uint32_t taken;
    int found = 0;
    const int live = reach(reached, references);
    memset(seen, 0, sizeof seen);
    call = "slot";
    for (uint32_t slot = 0; slot < model.config.slots; slot++) {
        made(recycler_slot(&heap, slot, &told), RECYCLER_OK);
        if (told.taken) {
            WANT(told.label < (uint32_t)model.count && reached[told.label] && !seen[told.label]);
            WANT(told.count == references[told.label]);
            seen[told.label] = true;
            found++;
        }
    }
    WANT(found == live);
    made(recycler_slot(&heap, model.config.slots, &told), RECYCLER_E_RANGE);
    made(recycler_taken(&heap, &taken), RECYCLER_OK);
    WANT(taken == (uint32_t)live);
}

static uint32_t totals(void) {
    recycler_totals_told told;
    uint32_t taken;
    call = "totals";
    made(recycler_totals(&heap, &told), RECYCLER_OK);
    made(recycler_taken(&heap, &taken), RECYCLER_OK);
    WANT(told.born == model.born && told.born - told.freed == taken && told.freed >= model.freed);
    return told.epoch;
}

static void settle(void) {
    recycler_settled told;
    const bool can = model.runs || totals() + 4 <= LAST_EPOCH;
    call = "settle";
    if (made(recycler_settle(&heap, &told), model.runs ? RECYCLER_E_RUNS : can ? RECYCLER_OK : RECYCLER_E_EPOCHS_SPENT)) {
        WANT(told.epochs == 3 || told.epochs == 4);
        memset(model.logged, 0, sizeof model.logged); /* each mutator has crossed */
        look();
        WANT(totals() <= LAST_EPOCH);
    }
}

static void renew(void) {
    static bool reached[OBJECTS];
    static uint64_t references[OBJECTS];
    const uint32_t slots = below(SLOTS + 1), live = (uint32_t)reach(reached, references);
    const uint32_t code = model.runs ? RECYCLER_E_RUNS : slots == 0 ? RECYCLER_E_SLOTS : live > slots ? RECYCLER_E_FEW_SLOTS : RECYCLER_OK;
    call = "renew";
    if (made(recycler_renew(&heap, slots), code)) {
        model.config.slots = slots;
        model.config.first_epoch = 1;
        model.born = live;
        model.freed = 0;
        memset(model.left, 0, sizeof model.left);
        memset(model.logged, 0, sizeof model.logged);
        look();
        WANT(totals() == 1);
    }
}

static void start_or_stop(void) {
    call = "start or stop";
    if (below(8) == 0) {
        made(model.runs ? recycler_start(&heap) : recycler_stop(&heap), model.runs ? RECYCLER_E_RUNS : RECYCLER_E_RESTS);
        return;
    }
    if (!model.runs || below(6) == 0) {
        made(model.runs ? recycler_stop(&heap) : recycler_start(&heap), RECYCLER_OK);
        model.runs = !model.runs;
    }
}

static void ask_for_notices(void) {
    const uint32_t room = below(9);
    const uint32_t code = model.listens ? RECYCLER_E_OPEN_ALREADY : model.runs ? RECYCLER_E_RUNS : room == 0 ? RECYCLER_E_RANGE : RECYCLER_OK;
    call = "notices";
    model.listens = made(recycler_notices(&heap, room), code) || model.listens;
}

/* A call on a handle that it isn't for, or that is closed. */
static void wrong_handle(void) {
    recycler_asked told;
    recycler_turned turned;
    uint32_t crossed;
    call = "a wrong handle";
    made(recycler_null(&heap.mutators[model.config.mutators], 0, &told), RECYCLER_E_CLOSED_HANDLE);
    if (model.runs) {
        made(recycler_poll(&heap.collector, &crossed), RECYCLER_E_OTHER_HANDLE);
        made(recycler_turn(&heap.mutators[0], &turned), RECYCLER_E_OTHER_HANDLE);
        made(recycler_close(&heap), RECYCLER_E_RUNS);
    }
}

static void open_heap(void) {
    recycler_config config = { 1 + below(SLOTS), 1 + below(FIELDS), 1 + below(REGISTERS), 1 + below(MUTATORS), 1 + below(LOG), 1, 0, 0 };
    if (below(10) == 0) {
        config.first_epoch = LAST_EPOCH - below(8);
    }
    memset(&model, 0, sizeof model);
    model.config = config;
    call = "open";
    made(recycler_open(&heap, &config), RECYCLER_OK);
    made(recycler_open(&heap, &config), RECYCLER_E_OPEN_ALREADY);
    const int first = new_object(false);
    model.born = 1;
    for (int m = 0; m < MUTATORS; m++) {
        for (int reg = 0; reg < REGISTERS; reg++) {
            model.registers[m][reg] = m < (int)config.mutators && reg == 0 ? first : NONE;
        }
    }
}

static void one_call(void) {
    const uint32_t m = below(model.config.mutators), which = below(64);
    if (which < 12) {
        birth(m, which == 0);
    } else if (which < 24) {
        put(m);
    } else if (which < 30) {
        get(m);
    } else if (which < 38) {
        plain(m);
    } else if (which < 46) {
        poll_or_leave(m);
    } else if (which < 54) {
        collect();
    } else if (which < 57) {
        hear();
    } else if (which < 60) {
        start_or_stop();
    } else if (which < 61) {
        settle();
    } else if (which < 62) {
        renew();
    } else if (which < 63) {
        ask_for_notices();
    } else {
        wrong_handle();
    }
}

static void close_heap(void) {
    recycler_asked told;
    if (model.runs) {
        call = "stop";
        made(recycler_stop(&heap), RECYCLER_OK);
        model.runs = false;
    }
    settle();
    call = "close";
    made(recycler_close(&heap), RECYCLER_OK);
    made(recycler_close(&heap), RECYCLER_E_CLOSED_HANDLE);
    made(recycler_null(&heap.mutators[0], 0, &told), RECYCLER_E_CLOSED_HANDLE);
}

int main(int count, char **words) {
    const uint64_t seeds = count > 1 ? strtoull(words[1], NULL, 10) : 1000, first = count > 2 ? strtoull(words[2], NULL, 10) : 1;
    for (seed = first; seed < first + seeds; seed++) {
        state = seed * UINT64_C(0x9E3779B97F4A7C15) | 1;
        open_heap();
        for (int k = 0; k < CALLS; k++) {
            one_call();
        }
        close_heap();
    }
    printf("%" PRIu64 " seeds, %" PRIu64 " calls: each as it should be\n", seeds, calls);
    return 0;
}
