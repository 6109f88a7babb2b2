/* recycler.h: a proved concurrent reference-counting collector, as a library for runtimes.
 *
 * A `recycler` is in the caller's memory. It holds a handle for the collector, one for each
 * mutator and one for a listener. Initialize it with RECYCLER_CLOSED or with zero bytes. Only
 * the library writes into it: pass its address and those of its handles, and never copy it.
 * Two heaps share nothing, so calls on one may run concurrently with calls on another.
 *
 * Linking. `make -C include install PREFIX=..` installs this header, both libraries, and files
 * for pkg-config and CMake. Build a program by
 *     cc program.c $(pkg-config --cflags --libs recycler) -lpthread
 * or with $(pkg-config --variable=archive recycler), the static library, in place of --libs. In
 * a checkout, `make -C include` leaves both libraries in include/out.
 *
 * Pointers. Pass no null pointer. An out-parameter points outside every `recycler`, belongs to
 * one call at a time, and needs no value before.
 *
 * Codes. Every call except recycler_version returns a recycler_code. Each function below lists
 * the codes that it can return; a code means the same everywhere. With any code other than
 * RECYCLER_OK the call did nothing: handles and out-parameters are unchanged. The one
 * exception is RECYCLER_E_SHARED. No call aborts, prints or waits, and none takes a lock
 * besides malloc's.
 *
 * Wrong calls. Codes report calls in a wrong order and numbers out of range. Nothing is
 * promised after a null pointer, a copied `recycler`, two calls at once on one handle, a call
 * on a handle during recycler_stop, or an out-parameter inside a `recycler`. A `recycler` that
 * isn't closed leaks. The handles past `mutators` stay closed, and return
 * RECYCLER_E_CLOSED_HANDLE.
 *
 * Threads. A call that takes a whole `recycler` needs it exclusively, with all its handles.
 * While the heap runs, pass each handle to one call at a time; calls on different handles may
 * run concurrently. One thread turns &r.collector, one thread each runs &r.mutators[k], which
 * is the mutator with number k + 1, and one may hear on &r.listener. A handle may move to
 * another thread. Order that by starting or joining a thread, a lock, or a sequentially
 * consistent atomic. It is proved that a handle may move, with what it holds and the pointer
 * to the heap (Owned of crates/recycler_c is Send). Make no call from a signal handler, or
 * from the forked child of a process with threads.
 *
 * Memory. recycler_open, recycler_notices, recycler_start and recycler_renew take memory by
 * malloc. recycler_close, recycler_stop, recycler_renew and a refused call give it back. No
 * other call returns RECYCLER_E_NO_MEMORY. malloc has to align as C says, and malloc, realloc
 * and free to be of one allocator.
 *
 * Epochs. Each collection spends an epoch, recycler_settle spends three, and 16,777,215 is the
 * last. A small collection takes some 8 microseconds (bench/README.md, the table of
 * bench/pauses), so a collector that turns without pause may spend all epochs within minutes.
 * Let its thread rest after RECYCLER_W_COLLECTED while slots are free: at one collection a
 * millisecond the epochs last 4.7 hours, at one a second 194 days. Each log has to hold what
 * its mutator allocates and writes during such a rest. After RECYCLER_W_NO_EPOCH nothing is
 * freed, and a heap with fewer than four epochs left can't be settled. Its mutators may go on
 * until slots or logs are full, and it may be stopped, closed or renewed. A heap that is to
 * last is renewed from time to time: recycler_totals returns the epoch, and renewing gives all
 * epochs again, with as many slots as you ask for:
 *
 *     recycler_stop(&r), recycler_settle(&r, &settled);
 *     recycler_renew(&r, slots), recycler_start(&r);
 *
 * If objects with two fields take all of 65,535 slots, these four calls take some 13
 * milliseconds, most of them for settling (bench/README.md). At one collection a millisecond
 * that is once in 4.7 hours.
 *
 * A mutator has registers, numbered from 0, and reaches objects only by them. An object has a
 * label, which the caller chooses when allocating it, and fields, numbered from 0. A register
 * or a field is null or leads to one object.
 *
 * Garbage. An object that no register reaches, and to which no cycle of references leads, is freed
 * by the end of the second collection that begins later. A collection that frees a garbage cycle
 * comes later, and no number is promised; settling frees every one.
 *
 * Notices. After recycler_notices, the collector sends the label of each object that it frees,
 * in the order of freeing, and recycler_hear returns each once. recycler_settle and
 * recycler_renew send none. A finalizer is therefore an entry of a table, indexed by the
 * object's label. Any thread may hear; here the one that turns the collector does:
 *
 *     static void (*finalizers[OBJECTS])(uint32_t);           an object's label is its index here
 *     ..
 *     recycler_notices(&r, 64);                               room for 64; before recycler_start
 *     ..
 *     recycler_heard heard = { 0, 0 };
 *     recycler_collect(&r.collector, 1000, &turned);          without room: RECYCLER_W_HELD
 *     while (recycler_hear(&r.listener, &heard) == RECYCLER_OK && heard.any)
 *         if (finalizers[heard.label])
 *             finalizers[heard.label](heard.label);           gone: its label is free for another
 *
 * Versions. The numbers below are this header's, and recycler_version returns the library's.
 * The first is raised if a program built before may no longer be linked. Before 3.0
 * recycler_config had no most_postponed, and before 2.0 no least_roots. Before 1.0 codes,
 * answers and outcomes of turns had no E_, A_ and W_ in their names, and recycler_open took six
 * numbers.
 */
#ifndef RECYCLER_H
#define RECYCLER_H

#include <stdbool.h>
#include <stddef.h>
#include <stdint.h>

#define RECYCLER_VERSION_MAJOR 3
#define RECYCLER_VERSION_MINOR 0
#define RECYCLER_VERSION_PATCH 0
#define RECYCLER_VERSION \
    (10000 * RECYCLER_VERSION_MAJOR + 100 * RECYCLER_VERSION_MINOR + RECYCLER_VERSION_PATCH)

/* For each call that returns a code: pass no null pointer, and use the code. */
#if defined(__GNUC__)
#define RECYCLER_CALL __attribute__((nonnull, warn_unused_result))
#else
#define RECYCLER_CALL
#endif

#ifdef __cplusplus
extern "C" {
#endif

typedef enum recycler_code {
    RECYCLER_OK = 0,
    RECYCLER_E_NO_MEMORY = 1,
    /* the first number of recycler_open out of its range; SLOTS also recycler_renew's */
    RECYCLER_E_SLOTS = 2,
    RECYCLER_E_FIELDS = 3,
    RECYCLER_E_REGISTERS = 4,
    RECYCLER_E_MUTATORS = 5,
    RECYCLER_E_LOG_ENTRIES = 6,
    RECYCLER_E_FIRST_EPOCH = 7,
    /* the handle is not open; it is open already */
    RECYCLER_E_CLOSED_HANDLE = 8,
    RECYCLER_E_OPEN_ALREADY = 9,
    /* the heap runs, and the call needs one at rest; or the other way round */
    RECYCLER_E_RUNS = 10,
    RECYCLER_E_RESTS = 11,
    /* the handle is open, and of another kind: a mutator's, the collector's or the listener's */
    RECYCLER_E_OTHER_HANDLE = 12,
    /* no such register, field or slot; or the room for notices isn't from 1 to 65,535 */
    RECYCLER_E_RANGE = 13,
    /* fewer than four epochs are left; 16,777,215 is the last */
    RECYCLER_E_EPOCHS_SPENT = 14,
    /* something besides its handles holds the running heap; in tests this never happens */
    RECYCLER_E_SHARED = 15,
    /* the mutator has left */
    RECYCLER_E_LEFT = 16,
    /* registers reach more objects than the slots asked for */
    RECYCLER_E_FEW_SLOTS = 17
} recycler_code;

/* It takes 64 bytes, so that no two handles share a line of memory, over which calling threads
 * would delay each other. */
typedef struct recycler_handle {
    bool full;
    struct { void *at; } owned;
    uint64_t apart[6];
} recycler_handle;

/* How many mutators a heap has at most. */
#define RECYCLER_MOST_MUTATORS 63

typedef struct recycler {
    recycler_handle collector;
    recycler_handle mutators[RECYCLER_MOST_MUTATORS];
    recycler_handle listener;
} recycler;

/* All handles are closed: an initializer leaves the rest zero. */
#define RECYCLER_CLOSED \
    { { false, { 0 }, { 0 } }, { { false, { 0 }, { 0 } } }, { false, { 0 }, { 0 } } }

/* What a heap is opened with. */
typedef struct recycler_config {
    uint32_t slots;       /* objects that fit: 1 to 65,535 */
    uint32_t fields;      /* of each object: 1 to 16 */
    uint32_t registers;   /* of each mutator: 1 to 64 */
    uint32_t mutators;    /* 1 to 63 */
    uint32_t log_entries; /* that the log of each mutator holds: 1 to 262,143 */
    uint32_t first_epoch; /* 1 to 16,777,215; 1 except to test what happens after the last one */
    uint32_t least_roots; /* candidate roots that a trial waits for; 0 for a trial in each
                             collection */
    uint32_t most_postponed; /* collections in a row that it waits at most; 0 for a trial in each
                                collection */
} recycler_config;

/* Candidate roots. Garbage cycles are found by trials, which trace from candidate roots: objects
 * that lost a reference, and not their last one. A collection makes a trial if least_roots
 * candidate roots wait, or if most_postponed collections in a row have made none. So with 0 in
 * either number each collection makes one, and of most_postponed + 1 collections in a row at
 * least one does. To wait pays where registers walk over large live structures, since each trial
 * traces them again (bench/README.md, "When to try"). An object costs a candidate root soon after
 * its allocation, leaves excepted, so at most half of the slots that live objects leave free is a
 * good number. Until a trial garbage cycles keep their slots, and finalizers that wait for them
 * aren't told. Where many objects are made candidate roots come soon; where few are, collections
 * are short. So a small most_postponed, such as 16, delays cycles little. recycler_settle frees
 * all. */

/* A good number of log entries for this many slots that live objects leave free. Each
 * allocation and each field write, null included, uses one entry; a refused command uses none.
 * A poll that crosses empties the log. It can cross once the collector has begun a collection.
 * So a log bounds how much of the heap its mutator takes in one epoch. With fewer entries
 * mutators wait for the collector too soon. With more they fill the heap, and each allocation
 * looks at many headers (bench/README.md, "The size of logs"). If registers walk over a large
 * live structure, use more entries: each collection tries what such a register reached, and
 * there are fewer collections. */
#define RECYCLER_LOG_ENTRIES(free_slots, mutators) \
    ((free_slots) < 64 * (mutators) ? 16 : (free_slots) / (4 * (mutators)))

/* A heap of all slots for one mutator, whose objects have two fields. Change what you like:
 *     recycler_config config = RECYCLER_DEFAULTS;
 *     config.mutators = 4; */
#define RECYCLER_DEFAULTS { 65535, 2, 16, 1, RECYCLER_LOG_ENTRIES(65535, 1), 1, 0, 0 }

/* The answer of a command. */
typedef enum recycler_answer {
    RECYCLER_A_DONE = 0,   /* it was done */
    RECYCLER_A_NULL = 1,   /* recycler_get: the field is null, and so is the register now */
    RECYCLER_A_OBJECT = 2, /* recycler_get: the field, and now the register, lead to an object */
    RECYCLER_A_VALUE = 3,  /* recycler_value: the object's label is in `label` */
    RECYCLER_A_YES = 4,    /* recycler_same: both name one object, or both are null */
    RECYCLER_A_NO = 5,     /* recycler_same: they don't */
    /* the heap refuses; nothing changed */
    RECYCLER_A_NO_OBJECT = 6, /* the register that should name an object is null */
    RECYCLER_A_FULL = 7,      /* recycler_new: every slot was taken */
    /* recycler_new: no free slot was found while a sweep ran. `before` and `after` are the freed
     * word, which is odd during a sweep and greater after it */
    RECYCLER_A_BUSY = 8,
    /* the mutator's log has no room: let the collector turn, poll until the poll crosses, and ask
     * again */
    RECYCLER_A_LOG_FULL = 9,
    RECYCLER_A_NO_FIELD = 10, /* recycler_put: the object is a leaf, whose fields stay null */
    /* recycler_leave: the log that the mutator handed over last isn't collected yet: let the
     * collector turn, and ask again */
    RECYCLER_A_NOT_YET = 11
} recycler_answer;

/* `answer` is a recycler_answer. `label`, `before` and `after` are 0 unless the answer has
 * them. */
typedef struct recycler_asked {
    uint32_t answer, label;
    uint64_t before, after;
} recycler_asked;

/* The outcome of a turn of the collector. */
typedef enum recycler_what {
    RECYCLER_W_MOVED = 0,
    /* mutator number `mutator` hasn't crossed into the requested epoch: it has still to poll or to
     * leave, or is doing so; nothing changed */
    RECYCLER_W_WAITING = 1,
    /* the collection of `epoch` is complete, and freed `freed` slots */
    RECYCLER_W_COLLECTED = 2,
    /* no epoch is left, so no collection begins; nothing changed */
    RECYCLER_W_NO_EPOCH = 3,
    /* the listener has no room for a label; the collection stops until it hears */
    RECYCLER_W_HELD = 4
} recycler_what;

/* `what` is a recycler_what. */
typedef struct recycler_turned {
    uint32_t what, mutator, epoch, freed;
} recycler_turned;

/* What the listener heard: `any` is 1 and `label` is that of a freed object, or both are 0. */
typedef struct recycler_heard {
    uint32_t any, label;
} recycler_heard;

/* How many collections settling completed, how many slots they freed, and how many slots hold
 * objects afterwards. */
typedef struct recycler_settled {
    uint32_t epochs, freed, live;
} recycler_settled;

/* Whether a slot holds an object (1 or 0), the object's label (0 for a free slot), and its
 * true count: how many references to it the collector has counted, an epoch or two late; 1 for
 * a free slot. */
typedef struct recycler_slot_told {
    uint32_t taken, label;
    uint64_t count;
} recycler_slot_told;

/* Since the heap was opened or renewed: objects born, the first one included; slots freed; the
 * requested epoch; collections completed. Of the sets of possible garbage cycles, how many
 * were freed, and how many each test refused: Delta, if an object of the set was touched since
 * the set was found; Sigma, if something outside still refers to it. */
typedef struct recycler_totals_told {
    uint64_t born, freed;
    uint32_t epoch, collections;
    uint64_t cycles_freed, cycles_refused_delta, cycles_refused_sigma;
} recycler_totals_told;

/* Returns the library's version, as RECYCLER_VERSION is the header's. */
uint32_t recycler_version(void);

/* Opens a heap at rest, in a closed `recycler`. One object with label 0 is in slot 0 and in
 * register 0 of each mutator. This takes the memory of the heap at rest and of its handles. A
 * register that holds the same object at two successive crossings costs the collector one
 * comparison, and no trial of what that object reaches. If a register has changed, the object
 * that it held before becomes a candidate root, unless it is a leaf or is freed: the next
 * trial looks at everything that it reaches. Codes: OPEN_ALREADY, the six of the numbers,
 * NO_MEMORY. */
RECYCLER_CALL uint32_t recycler_open(recycler *r, const recycler_config *config);

/* Closes a heap at rest, and frees its memory. Another heap may be opened there. Codes:
 * CLOSED_HANDLE, RUNS. */
RECYCLER_CALL uint32_t recycler_close(recycler *r);

/* Asks for notices, for a heap at rest: from its next start on, the collector sends the label
 * of each object that it frees to &r->listener. Between them there is room for `room` labels,
 * 1 to 65,535. Call it once per heap. Stopping and starting keep notices, recycler_settle and
 * recycler_renew send none, and recycler_close ends them. Codes: CLOSED_HANDLE, RUNS,
 * OPEN_ALREADY (it was called before), RANGE, NO_MEMORY. */
RECYCLER_CALL uint32_t recycler_notices(recycler *r, uint32_t room);

/* Returns the next label of a freed object, on &r->listener, whether the heap runs or not. It
 * never blocks. Codes: CLOSED_HANDLE (no notices were asked for), OTHER_HANDLE. */
RECYCLER_CALL uint32_t recycler_hear(recycler_handle *listener, recycler_heard *told);

/* Sets a heap at rest running. &r->collector is then the collector's handle, and
 * &r->mutators[k] that of mutator k + 1. Codes: CLOSED_HANDLE, RUNS, NO_MEMORY, SHARED. After
 * SHARED it runs without mutators, whose handles return RESTS: stop it. */
RECYCLER_CALL uint32_t recycler_start(recycler *r);

/* Stops a running heap: it rests, as its threads left it. No mutator has to be called first.
 * It may be started again, settled or not. Codes: CLOSED_HANDLE, RESTS, SHARED. After SHARED
 * it still runs, but without mutators: their handles return RESTS, and recycler_stop may be
 * called again. */
RECYCLER_CALL uint32_t recycler_stop(recycler *r);

/* Settles a heap at rest: afterwards exactly the slots that registers reach hold objects, with
 * true counts. It completes three collections, or four if one was under way. Codes:
 * CLOSED_HANDLE, RUNS, EPOCHS_SPENT. */
RECYCLER_CALL uint32_t recycler_settle(recycler *r, recycler_settled *told);

/* Renews a heap at rest, with epochs from 1 and with `slots` slots, 1 to 65,535, more or fewer
 * than before. Each register names the object that it named. Each object that registers reach
 * keeps its label, its fields and whether it is a leaf; counts are true. The heap's other
 * numbers stay. The renewed heap is already settled. Unreachable objects are dropped without
 * notices: turn before if you need those. This isn't required, so a heap without epochs is
 * renewed too. A label still to be heard stays. Objects are in other slots than before, in the
 * first ones, and the totals are those of a heap opened with these objects. A mutator that had
 * left is there again, with null registers, and has to poll or to leave. During the call there
 * is memory for both heaps. Codes: CLOSED_HANDLE, RUNS, SLOTS, FEW_SLOTS, NO_MEMORY. */
RECYCLER_CALL uint32_t recycler_renew(recycler *r, uint32_t slots);

/* Returns what is in a slot of a heap at rest, from 0. Codes: CLOSED_HANDLE, RUNS, RANGE. */
RECYCLER_CALL uint32_t recycler_slot(recycler *r, uint32_t slot, recycler_slot_told *told);

/* Returns how many slots of a heap at rest hold objects. Codes: CLOSED_HANDLE, RUNS. */
RECYCLER_CALL uint32_t recycler_taken(recycler *r, uint32_t *taken);

/* Returns the totals of a heap at rest. Codes: CLOSED_HANDLE, RUNS. */
RECYCLER_CALL uint32_t recycler_totals(recycler *r, recycler_totals_told *told);

/* Makes one step of a collection, on &r->collector. It never blocks. With notices, it sends
 * the label of an object that the step freed. A label that found no room is kept, and sent
 * before the next step; as long as there is no room the outcome is HELD, and no step is made.
 * Codes: CLOSED_HANDLE, RESTS, OTHER_HANDLE. */
RECYCLER_CALL uint32_t recycler_turn(recycler_handle *collector, recycler_turned *told);

/* Makes up to `turns` steps of a collection, on &r->collector. It ends after the first one
 * that isn't MOVED, and before one that is HELD. `told` is the outcome of the last one, and
 * MOVED if turns is 0. It never blocks, and its steps are those of as many calls of
 * recycler_turn. Codes: CLOSED_HANDLE, RESTS, OTHER_HANDLE. */
RECYCLER_CALL uint32_t recycler_collect(recycler_handle *collector, uint32_t turns,
                                        recycler_turned *told);

/* The calls below are for &r->mutators[k]. Codes of each: CLOSED_HANDLE, RESTS, OTHER_HANDLE,
 * LEFT; of the commands RANGE too, if a register or the field doesn't exist. A command that
 * the heap refuses returns RECYCLER_OK, with the refusal in `answer`. */

/* Crosses into the requested epoch, if the mutator isn't in it: `crossed` is that epoch, or 0.
 * A mutator that doesn't poll holds up the collector, so one with nothing to do has to poll
 * too, or to leave. */
RECYCLER_CALL uint32_t recycler_poll(recycler_handle *mutator, uint32_t *crossed);

/* Leaves the heap for good: the mutator's registers become null, and the collector waits for
 * it no more once its last log is collected. Its calls then return LEFT, also after the heap
 * was stopped and started again, until it is renewed. Answers: DONE, NOT_YET. */
RECYCLER_CALL uint32_t recycler_leave(recycler_handle *mutator, recycler_asked *told);

/* Allocates an object with this label and null fields, and sets `reg` to it. Any label fits.
 * Answers: DONE, FULL, BUSY, LOG_FULL. After FULL or BUSY it has looked at every slot. A poll
 * that crosses shows that a collection is over: poll until one does, or a few hundred times,
 * before trying again (give_way in bench/rings/over_recycler.h). */
RECYCLER_CALL uint32_t recycler_new(recycler_handle *mutator, uint32_t reg, uint32_t label,
                                    recycler_asked *told);

/* Allocates a leaf, and sets `reg` to it: an object whose fields are null for good. The
 * collector looks into no leaf, and no leaf is part of a cycle that it searches for. Answers:
 * DONE, FULL, BUSY, LOG_FULL. */
RECYCLER_CALL uint32_t recycler_leaf(recycler_handle *mutator, uint32_t reg, uint32_t label,
                                     recycler_asked *told);

/* Sets `reg` to null. Answers: DONE. */
RECYCLER_CALL uint32_t recycler_null(recycler_handle *mutator, uint32_t reg, recycler_asked *told);

/* Sets `dst` to what `src` names, or to null. Answers: DONE. */
RECYCLER_CALL uint32_t recycler_copy(recycler_handle *mutator, uint32_t dst, uint32_t src,
                                     recycler_asked *told);

/* Sets `dst` to what the field of the object in `src` leads to. Answers: NULL, OBJECT,
 * NO_OBJECT. */
RECYCLER_CALL uint32_t recycler_get(recycler_handle *mutator, uint32_t dst, uint32_t src,
                                    uint32_t field, recycler_asked *told);

/* Sets the field of the object in `src` to what `val` names, or to null. Answers: DONE,
 * NO_OBJECT, LOG_FULL, NO_FIELD. */
RECYCLER_CALL uint32_t recycler_put(recycler_handle *mutator, uint32_t src, uint32_t field,
                                    uint32_t val, recycler_asked *told);

/* Answers the label of the object in `reg`. Answers: VALUE, NO_OBJECT. */
RECYCLER_CALL uint32_t recycler_value(recycler_handle *mutator, uint32_t reg, recycler_asked *told);

/* Answers whether both registers name one object, or both are null. Answers: YES, NO. */
RECYCLER_CALL uint32_t recycler_same(recycler_handle *mutator, uint32_t a, uint32_t b,
                                     recycler_asked *told);

/* A code, an answer or an outcome in words. */

static inline const char *recycler_code_text(uint32_t code) {
    switch (code) {
    case RECYCLER_OK: return "done";
    case RECYCLER_E_NO_MEMORY: return "out of memory";
    case RECYCLER_E_SLOTS: return "the number of slots is out of its range";
    case RECYCLER_E_FIELDS: return "the number of fields is out of its range";
    case RECYCLER_E_REGISTERS: return "the number of registers is out of its range";
    case RECYCLER_E_MUTATORS: return "the number of mutators is out of its range";
    case RECYCLER_E_LOG_ENTRIES: return "the number of log entries is out of its range";
    case RECYCLER_E_FIRST_EPOCH: return "the first epoch is out of its range";
    case RECYCLER_E_CLOSED_HANDLE: return "the handle is closed";
    case RECYCLER_E_OPEN_ALREADY: return "it is open already";
    case RECYCLER_E_RUNS: return "the heap runs";
    case RECYCLER_E_RESTS: return "the heap is at rest";
    case RECYCLER_E_OTHER_HANDLE: return "the handle is of another kind";
    case RECYCLER_E_RANGE: return "a register, a field, a slot or the room is out of its range";
    case RECYCLER_E_EPOCHS_SPENT: return "fewer than four epochs are left";
    case RECYCLER_E_SHARED: return "something else than its handles holds the heap";
    case RECYCLER_E_LEFT: return "the mutator has left";
    case RECYCLER_E_FEW_SLOTS: return "registers reach more objects than there would be slots";
    default: return "no code of this library";
    }
}

static inline const char *recycler_answer_text(uint32_t answer) {
    switch (answer) {
    case RECYCLER_A_DONE: return "done";
    case RECYCLER_A_NULL: return "the field is null";
    case RECYCLER_A_OBJECT: return "the field leads to an object";
    case RECYCLER_A_VALUE: return "a label";
    case RECYCLER_A_YES: return "the same";
    case RECYCLER_A_NO: return "not the same";
    case RECYCLER_A_NO_OBJECT: return "the register is null";
    case RECYCLER_A_FULL: return "every slot was taken";
    case RECYCLER_A_BUSY: return "no free slot was found while a sweep ran";
    case RECYCLER_A_LOG_FULL: return "the log is full";
    case RECYCLER_A_NO_FIELD: return "a leaf's fields are null for good";
    case RECYCLER_A_NOT_YET: return "the last log is not collected yet";
    default: return "no answer of this library";
    }
}

static inline const char *recycler_what_text(uint32_t what) {
    switch (what) {
    case RECYCLER_W_MOVED: return "moved";
    case RECYCLER_W_WAITING: return "a mutator has still to cross";
    case RECYCLER_W_COLLECTED: return "a collection is complete";
    case RECYCLER_W_NO_EPOCH: return "no epoch is left";
    case RECYCLER_W_HELD: return "a label waits for room";
    default: return "nothing that a turn of this library comes to";
    }
}

/* The library has these sizes and places too. */
#if defined(__cplusplus) && __cplusplus >= 201103L
#define RECYCLER_HAS(what) static_assert(what, #what)
#elif !defined(__cplusplus) && defined(__STDC_VERSION__) && __STDC_VERSION__ >= 201112L
#define RECYCLER_HAS(what) _Static_assert(what, #what)
#endif
#ifdef RECYCLER_HAS
RECYCLER_HAS(sizeof(recycler_handle) == 64);
RECYCLER_HAS(offsetof(recycler_handle, owned) == 8);
RECYCLER_HAS(sizeof(recycler) == 65 * 64);
RECYCLER_HAS(offsetof(recycler, listener) == 64 * 64);
RECYCLER_HAS(sizeof(recycler_config) == 32);
RECYCLER_HAS(sizeof(recycler_asked) == 24);
RECYCLER_HAS(offsetof(recycler_asked, before) == 8);
RECYCLER_HAS(sizeof(recycler_turned) == 16);
RECYCLER_HAS(sizeof(recycler_heard) == 8);
RECYCLER_HAS(sizeof(recycler_settled) == 12);
RECYCLER_HAS(sizeof(recycler_slot_told) == 16);
RECYCLER_HAS(offsetof(recycler_slot_told, count) == 8);
RECYCLER_HAS(sizeof(recycler_totals_told) == 48);
RECYCLER_HAS(offsetof(recycler_totals_told, cycles_freed) == 24);
#undef RECYCLER_HAS
#endif

#ifdef __cplusplus
}
#endif

#endif
