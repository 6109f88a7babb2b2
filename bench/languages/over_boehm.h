/* The heap of a Scheme over Boehm's collector. gc.h makes pthread_create its own, so it knows each thread. The registers are in static
 * memory, where it looks for roots. GC_MAXIMUM_HEAP_SIZE of the environment bounds its heap. */
#define GC_THREADS
#include <gc.h>
#include <string.h>

#include "over_pointers.h"

static void tell_freed(void *token, void *nothing) {
    (void)nothing;
    keep_token(label_from(((object *)token)->label).number);
}

static object *bytes_for(kind of, size_t size) {
    object *it = of < PAIR ? GC_MALLOC_ATOMIC(size) : GC_MALLOC(size);
    if (of == TOKEN && it != NULL)
        GC_register_finalizer(it, tell_freed, NULL, NULL, NULL);
    return it;
}

static void open_heap(int slots) {
    (void)slots;
    GC_INIT();
    open_seats();
}
