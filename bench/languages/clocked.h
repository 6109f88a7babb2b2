/* A heap whose allocations are timed. INNER names its file. The longest allocation, and the longest time between two of any threads, in
 * which no thread got on, stand on standard error at the end, in nanoseconds. */
static uint64_t longest_call, longest_pause, last_made;

#define make make_untimed
#define close_heap close_untimed
#include INNER
#undef make
#undef close_heap

static uint64_t now(void) {
    struct timespec time;
    clock_gettime(CLOCK_MONOTONIC, &time);
    return (uint64_t)time.tv_sec * 1000000000 + (uint64_t)time.tv_nsec;
}

static void note(uint64_t *longest, uint64_t nanos) {
    uint64_t before = __atomic_load_n(longest, __ATOMIC_SEQ_CST);
    while (nanos > before && !__atomic_compare_exchange_n(longest, &before, nanos, false, __ATOMIC_SEQ_CST, __ATOMIC_SEQ_CST))
        continue;
}

static void make(mutator *m, int reg, kind of, int number) {
    uint64_t begun = now();
    make_untimed(m, reg, of, number);
    uint64_t ended = now(), before = __atomic_exchange_n(&last_made, ended, __ATOMIC_SEQ_CST);
    note(&longest_call, ended - begun);
    note(&longest_pause, before == 0 || ended < before ? 0 : ended - before);
}

static total close_heap(void) {
    fprintf(stderr, "longest call %llu, longest pause %llu\n", (unsigned long long)longest_call, (unsigned long long)longest_pause);
    return close_untimed();
}
