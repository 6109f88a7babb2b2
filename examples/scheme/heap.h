/* What a Scheme asks of a heap: objects, and the threads that make and collect them. A thread reaches objects by its registers alone. So what
 * a program holds is in a register or hangs on one, and C keeps no pointer to an object. OVER names the file that has the calls of a heap:
 * over_recycler.h here, and bench/languages has others. */
#ifndef SCHEME_HEAP_H
#define SCHEME_HEAP_H

#define _POSIX_C_SOURCE 200809L
#include <pthread.h>
#include <sched.h>
#include <setjmp.h>
#include <stdarg.h>
#include <stdbool.h>
#include <stdint.h>
#include <stdio.h>
#include <stdlib.h>
#include <time.h>

#ifndef OVER
#define OVER "over_recycler.h"
#endif

/* Kinds of objects. A label has a kind in its lowest four bits, and the number that stands here above. Those before PAIR are leaves. */
typedef enum kind {
    NOTHING, FALSE, TRUE, EMPTY, VOID, /* NOTHING is of a null register, and VOID what a call answers that answers nothing */
    NUMBER, SYMBOL, STRING,            /* itself, or which text */
    PRIMITIVE, THREAD,                 /* which one */
    PAIR,                              /* fields: head, tail, token */
    CLOSURE,                           /* which instruction made it. Fields: environment, nothing, token */
    VECTOR,                            /* how many items, which are on nodes */
    NODE,                              /* of a vector: an item, and nodes. Of an environment: the node outside, and values */
    FRAME,                             /* where the program goes on. Fields: the frame before, and what registers named */
    TOKEN                              /* which one. Field 0: the token that its object had before */
} kind;

typedef struct label { kind of; int number; } label;

static uint32_t label_of_kind(kind of, int number) {
    return (uint32_t)number << 4 | of;
}

static label label_from(uint32_t whole) {
    return (label){ whole & 15, (int)(whole >> 4 ^ 1u << 27) - (1 << 27) };
}

enum { FIELDS = 4, BRANCHES = FIELDS - 1, TOKENS = 2, OPERANDS = 24, MOST_NUMBER = (1 << 27) - 1, LEAST_NUMBER = -MOST_NUMBER - 1 };

/* Registers. ROOT names a vector that all threads share: the globals, and behind them what threads carry out. NONE is null, from CONSTANTS on are
 * objects of the kinds FALSE to VOID, and from CELLS on the nodes of some globals. */
enum { ROOT, NONE, CONSTANTS, CELLS = CONSTANTS + VOID, FRAMES = 64 - OPERANDS - 5, ENVIRONMENT, STACK, FRESH = STACK + OPERANDS, WALK, SPARE, REGISTERS };

/* A thread of the program: what the heap knows it by, which one it is, the line that it carries out, and how many calls it made. */
typedef struct mutator {
    void *handle;
    int number, line, calls;
    jmp_buf failed;
} mutator;

/* How many objects a heap made, and how many of them it freed. */
typedef struct total { uint64_t born, freed; } total;

/* Unless something holds, the interpreter itself is wrong, or C's memory is spent. */
static void require(bool holds, const char *sentence) {
    if (!holds) {
        fprintf(stderr, "scheme: %s\n", sentence);
        exit(2);
    }
}

/* Unless something holds, what a thread carries out ends with a sentence. */
#define check(m, holds, ...) ((holds) ? (void)0 : fail(m, __VA_ARGS__))

static void fail(mutator *m, const char *format, ...) {
    char sentence[200];
    va_list given;
    va_start(given, format);
    vsnprintf(sentence, sizeof sentence, format, given);
    va_end(given);
    fprintf(stderr, "line %d: %s\n", m->line, sentence);
    longjmp(m->failed, 1);
}

/* ---- what threads share in C's memory */

enum { UNUSED, TAKEN, RUNS, ENDED, HAS_FAILED, NOBODY = -1, LOCKS = 3, MOST_THREADS = 63 };

static mutator mutators[MOST_THREADS];
static int thread_count = 8, states[MOST_THREADS], token_count, freed_count, *freed_tokens;
static int holders[LOCKS] = { NOBODY, NOBODY, NOBODY }; /* of the program's lock, of that of output, and of that of finalizers */
static pthread_mutex_t shared = PTHREAD_MUTEX_INITIALIZER; /* of all of this. Nobody has it for long */

/* Room for one item more in an array that doubles. */
static void *grown(void *items, int count, size_t size) {
    if ((count & (count - 1)) == 0)
        items = realloc(items, (count == 0 ? 1 : 2 * (size_t)count) * size);
    require(items != NULL, "no memory is left");
    return items;
}

/* Finds a number that is `from`, and lets it be `to`. The answer is which one it was, or -1. */
static int change(int *numbers, int count, int from, int to) {
    int which = 0;
    pthread_mutex_lock(&shared);
    while (which < count && numbers[which] != from)
        which++;
    if (which < count)
        numbers[which] = to;
    pthread_mutex_unlock(&shared);
    return which < count ? which : -1;
}

static int new_token(void) {
    pthread_mutex_lock(&shared);
    int token = ++token_count;
    pthread_mutex_unlock(&shared);
    return token;
}

/* Notes that the object with this token was freed. */
static void keep_token(int token) {
    pthread_mutex_lock(&shared);
    freed_tokens = grown(freed_tokens, freed_count, sizeof *freed_tokens);
    freed_tokens[freed_count++] = token;
    pthread_mutex_unlock(&shared);
}

/* A token that was freed, or 0: each once. A thread with a lock gets none, since what is called then may want the lock. */
static int freed_token(mutator *m) {
    int token = 0;
    pthread_mutex_lock(&shared);
    if (freed_count > 0 && holders[0] != m->number && holders[1] != m->number && holders[2] != m->number)
        token = freed_tokens[--freed_count];
    pthread_mutex_unlock(&shared);
    return token;
}

/* ---- the calls of a heap, and then what is made of them */

#include OVER

/* A leaf. Of the kinds FALSE to VOID each thread has one from its beginning on. */
static void set(mutator *m, int reg, kind of, int number) {
    if (of > VOID)
        make(m, reg, of, number);
    else
        copy(m, reg, of == NOTHING ? NONE : CONSTANTS + of - FALSE);
}

/* Lets WALK name the node that has an item of a vector in field 0. Node n hangs on node (n - 1) / BRANCHES, and the vector is node 0. */
static void reach(mutator *m, int vector, int item) {
    if (item > BRANCHES)
        reach(m, vector, (item - 1) / BRANCHES);
    get(m, WALK, item > BRANCHES ? WALK : vector, 1 + (item - 1) % BRANCHES);
}

static void add_item(mutator *m, int vector, int item, int value) {
    make(m, FRESH, NODE, 0);
    put(m, FRESH, 0, value);
    if (item > BRANCHES)
        reach(m, vector, (item - 1) / BRANCHES);
    put(m, item > BRANCHES ? WALK : vector, 1 + (item - 1) % BRANCHES, FRESH);
}

/* ---- threads: the first one collects. Each other has a mutator, which leaves at its end */

static void carry_out(mutator *m);

/* Whether what a thread carries out ended without a failure. */
static bool succeeds(mutator *m) {
    if (setjmp(m->failed) != 0)
        return false;
    carry_out(m);
    return true;
}

static void *work(void *given) {
    mutator *m = given;
    int end = succeeds(m) ? ENDED : HAS_FAILED;
    while (change(holders, LOCKS, m->number, NOBODY) >= 0)
        continue;
    leave(m);
    change(&states[m->number], 1, RUNS, end);
    return NULL;
}

static void start(int number, int line) {
    pthread_t thread;
    mutators[number] = (mutator){ .number = number, .line = line };
    enter(&mutators[number]);
    change(&states[number], 1, TAKEN, RUNS);
    require(pthread_create(&thread, NULL, work, &mutators[number]) == 0, "no thread can be started");
    pthread_detach(thread);
}

#endif
