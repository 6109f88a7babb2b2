/* A heap whose calls are counted. INNER names its file. Standard error has at the end how many calls of procedures the program made, and how
 * many objects, leaves, writes, reads, copies, labels and comparisons these asked for, in this order. */
enum { OBJECTS, LEAVES, WRITES, READS, COPIES, LABELS, COMPARISONS, ASKED };

static uint64_t asked[ASKED];

#define make make_uncounted
#define put put_uncounted
#define get get_uncounted
#define copy copy_uncounted
#define label_of label_of_uncounted
#define is_one is_one_uncounted
#define close_heap close_uncounted
#include INNER
#undef make
#undef put
#undef get
#undef copy
#undef label_of
#undef is_one
#undef close_heap

static void count(int what) {
    __atomic_add_fetch(&asked[what], 1, __ATOMIC_SEQ_CST);
}

static void make(mutator *m, int reg, kind of, int number) {
    count(of < PAIR ? LEAVES : OBJECTS);
    make_uncounted(m, reg, of, number);
}

static void put(mutator *m, int into, int field, int from) {
    count(WRITES);
    put_uncounted(m, into, field, from);
}

static bool get(mutator *m, int to, int from, int field) {
    count(READS);
    return get_uncounted(m, to, from, field);
}

static void copy(mutator *m, int to, int from) {
    count(COPIES);
    copy_uncounted(m, to, from);
}

static label label_of(mutator *m, int reg) {
    count(LABELS);
    return label_of_uncounted(m, reg);
}

static bool is_one(mutator *m, int a, int b) {
    count(COMPARISONS);
    return is_one_uncounted(m, a, b);
}

static total close_heap(void) {
    uint64_t calls = 0;
    for (int each = 0; each < MOST_THREADS; each++)
        calls += (uint64_t)mutators[each].calls;
    fprintf(stderr, "calls %llu", (unsigned long long)calls);
    for (int what = 0; what < ASKED; what++)
        fprintf(stderr, " %llu", (unsigned long long)asked[what]);
    fprintf(stderr, "\n");
    return close_uncounted();
}
