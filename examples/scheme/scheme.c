/* scheme [-s SLOTS] [-t THREADS] [-v] FILE: carries out a program. Status 1: it is wrong, and a line and a sentence say where. */
#include "heap.h"

#include "compile.h"
#include <inttypes.h>
#include <unistd.h>

/* ---- primitives */

enum { LESS = 1, EQUAL = 2, MORE = 4, TO_SEE = 0, TO_READ, AS_STRING, AS_FAILURE };

/* Operands are in registers from `first` on, and the value is in `first` then. Operands that have to be of a kind have numbers. Where `told` is
 * there, a value that is #t or #f is wanted there alone. */
typedef struct call {
    int of, first, count, *told, numbers[OPERANDS];
} call;

static void answer(mutator *m, const call *c, bool is) {
    if (c->told != NULL)
        *c->told = is;
    else
        set(m, c->first, is ? TRUE : FALSE, 0);
}

static long long calculated(int operation, long long all, int next) {
    switch (operation) {
    case '+': return all + next;
    case '-': return all - next;
    case '*': return all * next;
    case '/': return all / next;
    default: return all % next;
    }
}

static void calculate(mutator *m, const call *c) {
    bool alone = c->count == 0 || (c->count == 1 && c->of == '-');
    long long all = alone ? c->of == '*' : c->numbers[0];
    for (int each = !alone; each < c->count; each++) {
        int next = c->numbers[each];
        check(m, next != 0 || (c->of != '/' && c->of != '%'), "a division by zero");
        all = calculated(c->of, all, next);
        check(m, all >= LEAST_NUMBER && all <= MOST_NUMBER, "a number isn't from %d to %d", LEAST_NUMBER, MOST_NUMBER);
    }
    make(m, c->first, NUMBER, (int)all);
}

static void compare(mutator *m, const call *c) {
    const int *n = c->numbers;
    bool all = true;
    for (int each = 1; each < c->count; each++)
        all = all && c->of & (n[each - 1] < n[each] ? LESS : n[each - 1] > n[each] ? MORE : EQUAL);
    answer(m, c, all);
}

/* Two leaves are the same where they look the same. */
static void is_same(mutator *m, const call *c) {
    label a = label_of(m, c->first), b = label_of(m, c->first + 1);
    bool alike = a.of < PAIR && a.of == b.of && a.number == b.number;
    answer(m, c, alike || is_one(m, c->first, c->first + 1));
}

static void is_of_kind(mutator *m, const call *c) {
    answer(m, c, c->of >> label_of(m, c->first).of & 1);
}

static void cons(mutator *m, int to, int head, int tail) {
    make(m, FRESH, PAIR, 0);
    put(m, FRESH, 0, head);
    put(m, FRESH, 1, tail);
    copy(m, to, FRESH);
}

static void make_pair(mutator *m, const call *c) {
    cons(m, c->first, c->first + c->of, c->first + 1 - c->of);
}

/* A part of a pair, or with a second operand its change. */
static void use_part(mutator *m, const call *c) {
    if (c->count == 1)
        get(m, c->first, c->first, c->of);
    else
        put(m, c->first, c->of, c->first + 1);
}

/* Of all operands, or of as many items as the first one says, each of them the second. */
static void vector(mutator *m, const call *c) {
    int count = c->of ? c->count : c->numbers[0];
    check(m, count >= 0, "a vector has no %d items", count);
    make(m, SPARE, VECTOR, count);
    for (int item = 1; item <= count; item++)
        add_item(m, SPARE, item, c->first + (c->of ? item - 1 : 1));
    copy(m, c->first, SPARE);
}

/* An item, or with a third operand its change. */
static void use_item(mutator *m, const call *c) {
    int count = c->numbers[0], at = c->numbers[1];
    check(m, at >= 0 && at < count, "a vector of %d items has no item %d", count, at);
    reach(m, c->first, at + 1);
    if (c->count == 2)
        get(m, c->first, WALK, 0);
    else
        put(m, WALK, 0, c->first + 2);
}

static void length(mutator *m, const call *c) {
    make(m, c->first, NUMBER, c->of == STRING ? (int)strlen(texts[c->numbers[0]]) : c->numbers[0]);
}

/* The texts of the operands, one behind another. */
static void use_text(mutator *m, const call *c) {
    char *text;
    size_t length;
    FILE *out = open_memstream(&text, &length);
    check(m, out != NULL, "no memory is left for a text");
    for (int each = 0; each < c->count; each++) {
        label is = label_of(m, c->first + each);
        if (is.of == NUMBER)
            fprintf(out, "%d", is.number);
        else if (is.of == SYMBOL || is.of == STRING)
            fprintf(out, is.of == STRING && c->of == TO_READ ? "\"%s\"" : "%s", texts[is.number]);
        else
            fputs(SHOWN[is.of], out);
    }
    fclose(out);
    if (c->of == TO_SEE || c->of == TO_READ)
        fputs(text, stdout);
    char sentence[200];
    snprintf(sentence, sizeof sentence, "%s", text);
    int number = c->of == AS_STRING ? number_of_text(m, text) : 0;
    free(text); /* before a failure, which goes on elsewhere */
    check(m, c->of != AS_FAILURE, "%s", sentence);
    if (c->of == AS_STRING)
        make(m, c->first, STRING, number);
}

static void spawn(mutator *m, const call *c) {
    int number = change(states, thread_count, UNUSED, TAKEN);
    check(m, number >= 0, "a program has %d threads at most", thread_count);
    reach(m, ROOT, global_count + 1 + number);
    put(m, WALK, 0, c->first);
    start(number, m->line);
    make(m, c->first, THREAD, number);
}

/* Who waits polls. */
static void join(mutator *m, const call *c) {
    for (int *state = &states[c->numbers[0]]; change(state, 1, RUNS, RUNS) >= 0; sched_yield())
        poll_crosses(m);
    check(m, change(&states[c->numbers[0]], 1, ENDED, ENDED) >= 0, "the thread that is joined has failed");
    reach(m, ROOT, global_count + 1 + c->numbers[0]);
    get(m, c->first, WALK, 0);
}

/* Holds a lock where `of` says so, or drops it. */
static void use_lock(mutator *m, const call *c) {
    int lock = c->numbers[0], from = c->of ? NOBODY : m->number, to = c->of ? m->number : NOBODY;
    check(m, lock >= 0 && lock < LOCKS, "there is no lock %d", lock);
    for (; change(&holders[lock], 1, from, to) < 0 && c->of; sched_yield())
        poll_crosses(m);
}

/* An object with a finalizer has a token that nothing else leads to. */
static void hang_token(mutator *m, const call *c) {
    kind of = label_of(m, c->first).of;
    check(m, of == PAIR || of == CLOSURE, "a pair or a procedure is wanted");
    int token = new_token();
    make(m, FRESH, TOKEN, token);
    get(m, SPARE, c->first, TOKENS);
    put(m, FRESH, 0, SPARE);
    put(m, c->first, TOKENS, FRESH);
    make(m, c->first, NUMBER, token);
}

static void next_token(mutator *m, const call *c) {
    make(m, c->first, NUMBER, freed_token(m));
}

/* An operand of a kind is a letter, and any other a dot. * is for as many of the last one as there are, and ! for no value. */
static const struct primitive {
    const char *name, *operands;
    void (*carry_out)(mutator *m, const call *c);
    int of;
} PRIMITIVES[] = {
    { "car", "p", use_part, 0 }, { "cdr", "p", use_part, 1 }, { "cons", "..", make_pair, 0 }, { "eq?", "..", is_same, 0 },
    { "null?", ".", is_of_kind, 1 << EMPTY }, { "pair?", ".", is_of_kind, 1 << PAIR }, { "not", ".", is_of_kind, 1 << FALSE },
    { "+", "n*", calculate, '+' }, { "-", "nn*", calculate, '-' }, { "=", "nn*", compare, EQUAL }, { "<", "nn*", compare, LESS },
    { ">", "nn*", compare, MORE }, { "<=", "nn*", compare, LESS | EQUAL }, { ">=", "nn*", compare, MORE | EQUAL },
    { "*", "n*", calculate, '*' }, { "quotient", "nn", calculate, '/' }, { "remainder", "nn", calculate, '%' },
    { "set-car!", "p.!", use_part, 0 }, { "set-cdr!", "p.!", use_part, 1 }, { "%xcons", "..", make_pair, 1 },
    { "number?", ".", is_of_kind, 1 << NUMBER }, { "symbol?", ".", is_of_kind, 1 << SYMBOL }, { "string?", ".", is_of_kind, 1 << STRING },
    { "boolean?", ".", is_of_kind, 1 << FALSE | 1 << TRUE }, { "procedure?", ".", is_of_kind, 1 << CLOSURE | 1 << PRIMITIVE },
    { "vector?", ".", is_of_kind, 1 << VECTOR }, { "vector", ".*", vector, true }, { "make-vector", "n.", vector, false },
    { "vector-length", "v", length, VECTOR }, { "vector-ref", "vn", use_item, 0 }, { "vector-set!", "vn.!", use_item, 0 },
    { "string-length", "s", length, STRING }, { "string-append", ".*", use_text, AS_STRING },
    { "number->string", "n", use_text, AS_STRING }, { "symbol->string", "y", use_text, AS_STRING },
    { "%print", ".!", use_text, TO_SEE }, { "%write", ".!", use_text, TO_READ }, { "%stop", ".", use_text, AS_FAILURE },
    { "spawn", ".", spawn, 0 }, { "join", "t", join, 0 }, { "%lock", "n!", use_lock, true }, { "%unlock", "n!", use_lock, false },
    { "%token", ".", hang_token, 0 }, { "%freed", "", next_token, 0 },
};

enum { PRIMITIVE_COUNT = sizeof PRIMITIVES / sizeof *PRIMITIVES };

static void operate(mutator *m, int which, int first, int count, int *told) {
    static const char LETTERS[] = ".....nys.tp.v";
    static const char *const NAMES[] = { [NUMBER] = "number", "symbol", "string", [THREAD] = "thread", "pair", [VECTOR] = "vector" };
    const struct primitive *p = &PRIMITIVES[which];
    int letters = (int)strcspn(p->operands, "*!");
    bool more = p->operands[letters] == '*';
    call c = { .of = p->of, .first = first, .count = count, .told = told };
    check(m, more ? count >= letters - 1 : count == letters, "`%s` doesn't take %d operands", p->name, count);
    for (int each = 0; each < count; each++) {
        char wanted = p->operands[each < letters ? each : letters - 1];
        label is = wanted == '.' ? (label){ NOTHING, 0 } : label_of(m, first + each);
        check(m, wanted == LETTERS[is.of], "a %s is wanted", NAMES[strchr(LETTERS, wanted) - LETTERS]);
        c.numbers[each] = is.number;
    }
    p->carry_out(m, &c);
    if (p->operands[letters] == '!')
        set(m, first, VOID, 0);
}

/* ---- the machine. What waits for the value of a call is a frame on the heap, so C's own stack holds nothing of a program */

static int look_around(mutator *m, int next);

/* How many objects hold what so many registers name. */
static int pieces(int registers) {
    return registers <= 0 ? 1 : (registers + BRANCHES - 1) / BRANCHES;
}

/* Hangs what registers name on so many new objects in front of a chain. */
static void push(mutator *m, int chain, kind of, int number, int first, int end, int objects) {
    for (; objects > 0; objects--) {
        make(m, FRESH, of, number);
        put(m, FRESH, 0, chain);
        for (int field = 1; field < FIELDS && first < end; field++)
            put(m, FRESH, field, first++);
        copy(m, chain, FRESH);
    }
}

/* Has a frame made that goes on at `next` with a value in `to`, unless only a RETURN is there. */
static void wait_for(mutator *m, int to, int next) {
    int behind = next;
    while (code[behind].does == JUMP)
        behind = code[behind].at;
    if (code[behind].does != RETURN)
        push(m, FRAMES, FRAME, next * REGISTERS + to, ENVIRONMENT, to, pieces(to - ENVIRONMENT));
}

/* Enters the body of a CLOSE or ENTER, with a node in front of the environment for its operands, and answers where the program goes on. */
static int enter_body(mutator *m, int begun, int first, int count) {
    push(m, ENVIRONMENT, NODE, 0, first, first + count, code[begun].nodes);
    return ++m->calls % 32 == 0 ? look_around(m, begun + 1) : begun + 1;
}

/* Calls the procedure behind `count` operands, and answers where the program goes on. */
static int call_procedure(mutator *m, int first, int count, int next) {
    label procedure = label_of(m, first + count);
    if (procedure.of == PRIMITIVE) {
        operate(m, procedure.number, first, count, NULL);
        return next;
    }
    check(m, procedure.of == CLOSURE, "what is called is no procedure");
    int wanted = code[procedure.number].number, least = wanted < 0 ? ~wanted : wanted;
    check(m, count == wanted || (wanted < 0 && count >= least), "a procedure of %d parameters is called with %d", least, count);
    wait_for(m, first, next);
    get(m, ENVIRONMENT, first + count, 0);
    if (wanted < 0) {
        set(m, SPARE, EMPTY, 0);
        for (; count > least; count--)
            cons(m, SPARE, first + count - 1, SPARE);
        copy(m, first + count++, SPARE);
    }
    return enter_body(m, procedure.number, first, count);
}

/* Hands the value in STACK to the frame that waits for it, and answers where the program goes on, or 0 where none waits. */
static int go_back(mutator *m) {
    int number = label_of(m, FRAMES).number, to = number % REGISTERS;
    if (number == 0)
        return 0;
    copy(m, to, STACK);
    for (int piece = pieces(to - ENVIRONMENT) - 1; piece >= 0; piece--) {
        for (int reg = ENVIRONMENT + piece * BRANCHES, field = 1; reg < to && field < FIELDS; reg++, field++)
            get(m, reg, FRAMES, field);
        get(m, FRAMES, FRAMES, 0);
    }
    return number / REGISTERS;
}

/* Now and then, at the beginning of a body. No register counts there but the environment and the frames: others would keep garbage. */
static int look_around(mutator *m, int next) {
    poll_crosses(m);
    for (int reg = STACK; reg < REGISTERS; reg++)
        copy(m, reg, NONE);
    int token = freed_token(m);
    if (token == 0)
        return next;
    make(m, STACK, NUMBER, token);
    reach(m, ROOT, PRIMITIVE_COUNT + 1); /* the first global of the prelude */
    get(m, STACK + 1, WALK, 0);
    return call_procedure(m, STACK, 1, next);
}

/* Has a register name the node of a variable, and answers which register that is. */
static int find(mutator *m, const instruction *i) {
    int from = ENVIRONMENT;
    if (i->number == 0 && i->at < 0)
        return ~i->at;
    if (i->number == 0)
        reach(m, ROOT, i->at);
    for (int outside = i->number == 0 ? 0 : i->at; outside > 0; outside--, from = WALK)
        get(m, WALK, from, 0);
    return i->number == 0 ? WALK : from;
}

static void run(mutator *m, int next) {
    int told;
    do {
        const instruction *i = &code[next++];
        m->line = i->line > 0 ? i->line : m->line;
        switch (i->does) {
        case CONSTANT:
            set(m, i->to, i->at, i->number);
            break;
        case LOAD:
            check(m, get(m, i->to, find(m, i), i->number), "`%s` has no value here", i->name);
            break;
        case STORE:
            put(m, find(m, i), i->number, i->to);
            break;
        case ENTER:
            wait_for(m, i->to, i->at);
            next = enter_body(m, next - 1, i->to, i->number);
            break;
        case CLOSE:
            make(m, i->to, CLOSURE, next - 1);
            put(m, i->to, 0, ENVIRONMENT);
            next = i->at;
            break;
        case CHOOSE:
            next = label_of(m, i->to).of == FALSE ? i->at : next;
            break;
        case JUMP:
            next = i->at;
            break;
        case CALL:
            next = call_procedure(m, i->to, i->number, next);
            break;
        case OPERATE: /* and CHOOSE behind the CALL, where that asks for #t or #f alone */
            i++;
            next++;
            told = -1;
            operate(m, i[-1].at, i->to, i[-1].number, i[1].does == CHOOSE ? &told : NULL);
            if (told >= 0)
                next = told ? next + 1 : i[1].at;
            break;
        case RETURN:
            next = go_back(m);
        }
    } while (next > 0);
}

/* ---- all: a prelude, and then the program */

static const char PRELUDE[] = {
#include "prelude.h" /* the letters of prelude.scm, and 0 */
};
static char *program; /* the text of the file */

/* Where the program never sets the global of a primitive, a call of it needs no look at the global. */
static void know_primitives(void) {
    int stores[PRIMITIVE_COUNT + 1] = { 0 };
    for (instruction *i = code; i < code + code_count; i++)
        if (i->does == STORE && i->number == 0 && i->at <= PRIMITIVE_COUNT)
            stores[i->at]++;
    for (instruction *i = code, *call = i + 1; call < code + code_count; i = call++)
        if (i->does == LOAD && i->number == 0 && i->at <= PRIMITIVE_COUNT && stores[i->at] == 1 && call->does == CALL)
            *i = (instruction){ OPERATE, call->to, i->at - 1, call->number, 0, call->line, NULL };
}

static int cells[FRAMES - CELLS], cell_count; /* the globals whose nodes are in registers */

/* Lets registers name the nodes of globals, those that the program uses last first, as far as registers go. */
static void choose_cells(void) {
    for (instruction *i = code + code_count - 1; i >= code; i--) {
        int cell = 0;
        if ((i->does != LOAD && i->does != STORE) || i->number != 0)
            continue;
        while (cell < cell_count && cells[cell] != i->at)
            cell++;
        if (cell == FRAMES - CELLS)
            continue;
        cell_count += cell == cell_count;
        cells[cell] = i->at;
        i->at = ~(CELLS + cell);
    }
}

/* Each primitive is the value of a global. */
static void compile_program(void) {
    datum *scope = pair(&nothing, &nothing);
    for (int each = 0; each < (int)(sizeof WORDS / sizeof *WORDS); each++)
        rules = pair(pair(read_text(WORDS[each], 0)->head, new_datum(PRIMITIVE, each, NULL, NULL)), rules);
    for (int each = 0; each < PRIMITIVE_COUNT; each++) {
        emit(CONSTANT, STACK, PRIMITIVE, each);
        emit_variable(STORE, new_datum(SYMBOL, number_of_text(reader, PRIMITIVES[each].name), NULL, NULL), scope, STACK);
    }
    compile_all(read_text(PRELUDE, -9999), scope, STACK); /* its lines aren't told */
    compile_all(read_text(program, 1), scope, STACK);
    emit(RETURN, STACK, 0, 0);
    know_primitives();
    choose_cells();
    for (int item = 1; item <= global_count + thread_count; item++)
        add_item(reader, ROOT, item, NONE);
}

/* What a thread carries out, and then what that came to, is an item of ROOT behind the globals. The first thread has the program. */
static void carry_out(mutator *m) {
    for (kind of = FALSE; of <= VOID; of++)
        make(m, CONSTANTS + of - FALSE, of, 0);
    if (m->number == 0)
        compile_program();
    for (int cell = 0; cell < cell_count; cell++) {
        reach(m, ROOT, cells[cell]);
        copy(m, CELLS + cell, WALK);
    }
    reach(m, ROOT, global_count + 1 + m->number);
    get(m, STACK, WALK, 0);
    run(m, m->number == 0 ? 0 : call_procedure(m, STACK, 0, code_count - 1));
    reach(m, ROOT, global_count + 1 + m->number);
    put(m, WALK, 0, STACK);
}

int main(int argc, char **argv) {
    int slots = 4096, option;
    bool tells = false;
    size_t room = 0;
    while ((option = getopt(argc, argv, "s:t:v")) != -1) {
        slots = option == 's' ? atoi(optarg) : slots;
        thread_count = option == 't' ? atoi(optarg) : thread_count;
        tells = tells || option == 'v';
    }
    FILE *file = optind + 1 == argc ? fopen(argv[optind], "r") : NULL;
    if (file == NULL) {
        fputs("usage: scheme [-s SLOTS] [-t THREADS] [-v] FILE\n", stderr);
        return 2;
    }
    if (getdelim(&program, &room, '\0', file) < 0)
        program = ""; /* an empty file */
    open_heap(slots);
    start(change(states, 1, UNUSED, TAKEN), 1);
    while (change(states, thread_count, RUNS, RUNS) >= 0)
        collect();
    total objects = close_heap();
    if (tells)
        fprintf(stderr, "objects: %" PRIu64 " made, %" PRIu64 " freed\n", objects.born, objects.freed);
    return change(states, thread_count, HAS_FAILED, HAS_FAILED) < 0 ? 0 : 1;
}
