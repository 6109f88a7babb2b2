/* From a text to instructions. */
#ifndef SCHEME_COMPILE_H
#define SCHEME_COMPILE_H

#include <ctype.h>
#include <string.h>

#include "heap.h"

/* ---- texts, which stay */

enum { MOST_TEXTS = 1 << 16, BUCKETS = 2 * MOST_TEXTS };

static char *texts[MOST_TEXTS];
static int text_count, buckets[BUCKETS]; /* a bucket has the number of a text and 1, or 0 */

/* The bucket of a text, or the free one where it goes: from its hash (FNV-1a) on. */
static int *bucket_of(const char *text) {
    uint32_t at = 2166136261u;
    for (const char *letter = text; *letter != '\0'; letter++)
        at = (at ^ (unsigned char)*letter) * 16777619u;
    while (buckets[at %= BUCKETS] != 0 && strcmp(texts[buckets[at] - 1], text) != 0)
        at++;
    return &buckets[at];
}

/* The same text has the same number. */
static int number_of_text(mutator *m, const char *text) {
    pthread_mutex_lock(&shared);
    int *bucket = bucket_of(text);
    if (*bucket == 0 && text_count < MOST_TEXTS) {
        texts[text_count] = strcpy(grown(NULL, 0, strlen(text) + 1), text);
        *bucket = ++text_count;
    }
    int number = *bucket - 1;
    pthread_mutex_unlock(&shared);
    check(m, number >= 0, "a program has %d texts at most", MOST_TEXTS);
    return number;
}

/* ---- reading: from a text to data, which are in C's memory, since no program looks at its own */

typedef struct datum {
    kind of;
    int number, line;
    struct datum *head, *tail;
} datum;

/* Texts of kinds whose objects all look the same. NOTHING is what `...` is read as. */
static const char *const SHOWN[] = {
    "...", "#f", "#t", "()", "#<void>", [PRIMITIVE] = "#<primitive>", "#<thread>", "(..)", "#<procedure>", "#(..)"
};
static datum nothing = { .of = EMPTY };
static mutator *const reader = mutators; /* of the first thread, which reads and compiles all */
static const char *rest;

static datum *new_datum(kind of, int number, datum *head, datum *tail) {
    datum *d = grown(NULL, 0, sizeof *d);
    *d = (datum){ of, number, reader->line, head, tail };
    return d;
}

static datum *pair(datum *head, datum *tail) {
    return new_datum(PAIR, 0, head, tail);
}

/* The next letter that is no blank. */
static char next_letter(void) {
    while (isspace((unsigned char)*rest) || *rest == ';') {
        reader->line += *rest == '\n';
        rest += *rest == ';' ? strcspn(rest, "\n") : 1;
    }
    return *rest;
}

/* A string, a constant, a number or a name. */
static datum *read_word(void) {
    char word[1000], *end = word;
    bool quoted = *rest == '"';
    for (rest += quoted; strchr(quoted ? "\"" : " \t\r\n()\"';", *rest) == NULL; rest++) {
        bool escaped = quoted && *rest == '\\' && rest[1] != '\0';
        check(reader, end < word + sizeof word - 1, "a word or a string is too long");
        reader->line += *rest == '\n';
        rest += escaped;
        *end++ = escaped && *rest == 'n' ? '\n' : *rest;
    }
    *end = '\0';
    check(reader, !quoted || *rest == '"', "a string has no end");
    rest += quoted;
    for (kind of = NOTHING; of <= VOID && !quoted; of++)
        if (strcmp(word, SHOWN[of]) == 0)
            return new_datum(of, 0, NULL, NULL);
    long number = strtol(word, &end, 10);
    if (quoted || end == word || *end != '\0')
        return new_datum(quoted ? STRING : SYMBOL, number_of_text(reader, word), NULL, NULL);
    check(reader, number >= LEAST_NUMBER && number <= MOST_NUMBER, "%s is no number from %d to %d", word, LEAST_NUMBER, MOST_NUMBER);
    return new_datum(NUMBER, (int)number, NULL, NULL);
}

static datum *read_datum(void);

/* Data up to a parenthesis, or to the end of the text. */
static datum *read_items(char end) {
    int begun = reader->line;
    datum *first = &nothing, **last = &first;
    while (next_letter() != end) {
        reader->line = *rest == '\0' ? begun : reader->line;
        check(reader, *rest != '\0', "a parenthesis isn't closed");
        bool dotted = *rest == '.' && isspace((unsigned char)rest[1]);
        rest += dotted;
        datum *d = read_datum();
        *last = dotted ? d : pair(d, *last);
        last = dotted ? last : &(*last)->tail;
        check(reader, !dotted || next_letter() == end, "one datum stands behind a dot");
    }
    rest += end != '\0';
    return first;
}

static datum *read_datum(void) {
    check(reader, next_letter() != '\0', "the text ends too soon");
    check(reader, *rest != ')', "a parenthesis closes nothing");
    if (*rest != '(' && *rest != '\'')
        return read_word();
    if (*rest++ == '(')
        return read_items(')');
    datum *quoted = pair(read_datum(), &nothing);
    return pair(new_datum(SYMBOL, number_of_text(reader, "quote"), NULL, NULL), quoted);
}

static datum *read_text(const char *text, int line) {
    rest = text;
    reader->line = line;
    return read_items('\0');
}

/* ---- rules: a form that fits the pattern of one is rewritten, until it is one of WORDS */

enum { QUOTE, IF, SET, DEFINE, BEGIN, LAMBDA, RULE };

static const char *const WORDS[] = {
    [QUOTE] = "(quote datum)", [IF] = "(if test value other)", [SET] = "(set! name value)", [DEFINE] = "(define name value)",
    [BEGIN] = "(begin . forms)", [LAMBDA] = "(lambda parameters form . forms)", [RULE] = "(define-rule (name . pattern) form)"
};

/* A list of pairs of a pattern and another form, or a number of WORDS. The last rule is the first one here. */
static datum *rules = &nothing;

/* A word of a pattern has what it stands for as its tail: at first nothing. */
static void forget(datum *pattern) {
    for (; pattern->of == PAIR; pattern = pattern->tail)
        forget(pattern->head);
    if (pattern->of == SYMBOL)
        pattern->tail = &nothing;
}

/* Whether a datum is as a pattern says. In that a word that begins with `name` stands for a name, what is before ... for all such data, and
 * any other word for any datum. */
static bool fits(datum *pattern, datum *d, bool repeated) {
    if (pattern->of == SYMBOL) {
        pattern->tail = repeated ? pair(d, pattern->tail) : d;
        return d->of == SYMBOL || strncmp(texts[pattern->number], "name", 4) != 0;
    }
    bool repeats = pattern->of == PAIR && pattern->tail->of == PAIR && pattern->tail->head->of == NOTHING;
    if (pattern->of != PAIR || d->of != PAIR)
        return pattern->of == d->of || (repeats && d->of == EMPTY);
    return fits(repeats ? pattern : pattern->tail, d->tail, repeated) && fits(pattern->head, d->head, repeated || repeats);
}

/* What a word stands for, or NULL where the pattern doesn't have it. */
static datum *meaning(const datum *pattern, int word) {
    if (pattern->of != PAIR)
        return pattern->of == SYMBOL && pattern->number == word ? pattern->tail : NULL;
    datum *first = meaning(pattern->head, word);
    return first != NULL ? first : meaning(pattern->tail, word);
}

/* A form where the pattern's words are what they stand for. */
static datum *filled(datum *form, const datum *pattern) {
    bool all = form->of == PAIR && form->tail->of == PAIR && form->tail->head->of == NOTHING;
    if (form->of == PAIR && !all)
        return pair(filled(form->head, pattern), filled(form->tail, pattern));
    datum *word = all ? form->head : form, *means = word->of == SYMBOL ? meaning(pattern, word->number) : NULL;
    return means != NULL ? means : form;
}

/* Rewrites a datum, and answers which of WORDS it is then, or -1. */
static int rewrite(datum **d) {
    datum *form = NULL;
    reader->line = (*d)->line;
    for (datum *each = rules; (*d)->of == PAIR && (*d)->head->of == SYMBOL && each->of == PAIR; each = each->tail) {
        datum *pattern = each->head->head;
        if (pattern->head->number != (*d)->head->number)
            continue;
        form = each->head->tail;
        forget(pattern);
        if (!fits(pattern->tail, (*d)->tail, false))
            continue;
        if (form->of == PRIMITIVE)
            return form->number;
        *d = filled(form, pattern->tail);
        return rewrite(d);
    }
    const char *right = form != NULL && form->of == PRIMITIVE ? WORDS[form->number] : "as one of its rules says";
    check(reader, form == NULL, "it should be %s", right);
    return -1;
}

/* ---- compiling: from data to instructions. Each has its value in the register `to`; those from STACK up to that are taken */

typedef enum operation {
    CONSTANT, /* an object of kind `at` with the number `number` */
    LOAD,     /* field `number` of the node that is `at` nodes outside; or where that is 0, global `at`, or of the node in register ~`at` */
    STORE,    /* into that */
    CLOSE,    /* a closure of `number` parameters, or ~ of that with a rest, on `nodes` nodes, whose body is behind this. Goes on at `at` */
    ENTER,    /* that body, whose operands are in `to` and behind it. No closure is made. Goes on at `at` */
    CHOOSE,   /* goes on at `at` where the value is #f */
    JUMP,     /* goes on at `at` */
    CALL,     /* the procedure behind `number` operands */
    OPERATE,  /* primitive `at` on `number` operands, in place of a LOAD. The CALL behind it is skipped */
    RETURN
} operation;

typedef struct instruction {
    operation does;
    int to, at, number, nodes, line;
    const char *name;
} instruction;

static instruction *code;
static int code_count, global_count;

static int emit(operation does, int to, int at, int number) {
    check(reader, to < FRESH, "operations nest too deep");
    code = grown(code, code_count, sizeof *code);
    code[code_count] = (instruction){ does, to, at, number, 0, reader->line, NULL };
    return code_count++;
}

/* A scope is a list of lists of names: of a node, of nodes outside, and last of the globals. A name that is nowhere is one more global. */
static void emit_variable(operation does, datum *name, datum *scope, int to) {
    for (int outside = 0;; scope = scope->tail, outside++) {
        bool global = scope->tail->of != PAIR;
        datum **names = &scope->head;
        int item = 1;
        for (; (*names)->of == PAIR && (*names)->head->number != name->number; names = &(*names)->tail)
            item++;
        if (global && item > global_count) {
            *names = pair(name, *names);
            global_count++;
        }
        if ((*names)->of == PAIR) {
            emit(does, to, global ? item : outside, global ? 0 : item);
            code[code_count - 1].name = texts[name->number];
            return;
        }
    }
}

static void compile(datum *d, datum *scope, int to);

static void compile_all(datum *forms, datum *scope, int to) {
    for (; forms->of == PAIR; forms = forms->tail)
        compile(forms->head, scope, to);
}

/* The scope in a body: a node for as many names as it has room for, and nodes inside that for the others. The number is how many nodes of
 * the same body are outside. */
static datum *inner_scope(datum *names, datum *outside, int node) {
    datum *scope = pair(names, outside), **end = &scope->head;
    scope->number = node;
    for (int item = 0; item < BRANCHES && (*end)->of == PAIR; item++)
        end = &(*end)->tail;
    names = *end;
    *end = &nothing;
    return names->of == PAIR ? inner_scope(names, scope, node + 1) : scope;
}

/* How many parameters there are, or ~ of that with a rest. */
static int parameters_of(const datum *names) {
    int parameters = 0;
    for (; names->of == PAIR; names = names->tail)
        parameters++;
    return names->of == SYMBOL ? ~parameters : parameters;
}

/* The body of CLOSE or ENTER, which is at `begun`. What its forms define are variables behind the parameters. */
static void compile_body(datum *parts, datum *outside, int begun) {
    datum *names = filled(parts->head, &nothing), **end = &names, *defined = &nothing; /* a copy of the parameters, since the list grows */
    int variables = 0;
    while ((*end)->of == PAIR)
        end = &(*end)->tail;
    code[begun].number = parameters_of(names);
    for (datum *forms = parts->tail; forms->of == PAIR; forms = forms->tail)
        if (rewrite(&forms->head) == DEFINE)
            defined = pair(forms->head->tail->head, defined);
    *end = (*end)->of == SYMBOL ? pair(*end, defined) : defined;
    for (datum *each = names; each->of == PAIR; each = each->tail)
        check(reader, each->head->of == SYMBOL && ++variables < OPERANDS, "a procedure has names for %d variables at most", OPERANDS - 1);
    code[begun].nodes = variables == 0 ? 1 : (variables + BRANCHES - 1) / BRANCHES;
    compile_all(parts->tail, inner_scope(names, outside, 0), STACK);
    emit(RETURN, STACK, 0, 0);
    code[begun].at = code_count;
}

/* Behind its operands. A body that is called at once, as that of a `let`, is entered without a closure. */
static void compile_call(datum *d, datum *scope, int to, int count) {
    if (rewrite(&d->head) == LAMBDA && parameters_of(d->head->tail->head) == count) {
        compile_body(d->head->tail, scope, emit(ENTER, to, 0, 0));
        return;
    }
    compile(d->head, scope, to + count);
    reader->line = d->line;
    emit(CALL, to, 0, count);
}

static void compile(datum *d, datum *scope, int to) {
    int word = rewrite(&d), count = 0, test, end;
    datum *parts = d->tail;
    switch (word) {
    case QUOTE:
        emit(CONSTANT, to, parts->head->of, parts->head->number);
        break;
    case IF:
        compile(parts->head, scope, to);
        test = emit(CHOOSE, to, 0, 0);
        compile(parts->tail->head, scope, to);
        end = emit(JUMP, to, 0, 0);
        code[test].at = code_count;
        compile(parts->tail->tail->head, scope, to);
        code[end].at = code_count;
        break;
    case SET:
    case DEFINE:
        compile(parts->tail->head, scope, to);
        emit_variable(STORE, parts->head, scope, to);
        check(reader, word == SET || scope->tail->of != PAIR || (code[code_count - 1].number > 0 && code[code_count - 1].at <= scope->number),
              "definitions stand at the top or in a body");
        break;
    case BEGIN:
        compile_all(parts, scope, to);
        break;
    case LAMBDA:
        compile_body(parts, scope, emit(CLOSE, to, 0, 0));
        break;
    case RULE:
        rules = pair(pair(parts->head, parts->tail->head), rules);
        break;
    default:
        for (; d->of == PAIR && parts->of == PAIR; parts = parts->tail)
            compile(parts->head, scope, to + count++);
        if (d->of == PAIR) {
            check(reader, parts->of == EMPTY, "a call is no list");
            compile_call(d, scope, to, count);
        } else if (d->of == SYMBOL) {
            emit_variable(LOAD, d, scope, to);
        } else {
            emit(CONSTANT, to, d->of, d->number);
        }
    }
}

#endif
