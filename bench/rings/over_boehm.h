/* The allocator over Boehm's collector, as it comes but for the limit of its heap: gc.h makes pthread_create its own, so it knows each
 * thread. */
#define GC_THREADS
#include <gc.h>

#include "over_pointers.h"

static void open_heap(uint64_t most_bytes, bool whole) {
    GC_set_max_heap_size(most_bytes);
    GC_INIT();
    if (whole && GC_expand_hp(most_bytes - GC_get_heap_size()) == 0) {
        fail("the heap doesn't get its bytes");
    }
}

static uint64_t heap_bytes(void) {
    return GC_get_heap_size();
}

static bool make(seat *s, int reg, uint32_t label) {
    return made(s, reg, label, GC_MALLOC(sizeof(object)));
}

static void drop(seat *s, int reg) {
    empty(s, reg);
}
