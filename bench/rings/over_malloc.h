/* The allocator over malloc: who drops something frees it, object by object. No heap of its own holds these objects. */
#include "over_pointers.h"

static void open_heap(uint64_t most_bytes, bool whole) {
    (void)most_bytes;
    (void)whole;
}

static uint64_t heap_bytes(void) {
    return 0;
}

static bool make(seat *s, int reg, uint32_t label) {
    return made(s, reg, label, malloc(sizeof(object)));
}

/* Frees an object and what it leads to, each object once: a field may lead back to the first one. */
static void free_all(object *it, const object *first) {
    for (int field = 0; field < FIELDS; field++) {
        object *next = it->fields[field];
        if (next != NULL && next != first) {
            free_all(next, first);
        }
    }
    free(it);
}

static void drop(seat *s, int reg) {
    object *first = s->registers[reg];
    empty(s, reg);
    if (first != NULL) {
        free_all(first, first);
    }
}
