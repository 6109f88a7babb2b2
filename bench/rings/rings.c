/* Rings of eight objects. Each thread keeps ALIVE rings: it drops the oldest one, and makes another in its place. */
enum { FIELDS = 1, OBJECTS = 8, ALIVE = 4, LAST = ALIVE, NEXT, REGISTERS, KEPT = ALIVE * OBJECTS };

#include "makers.h"

static void replace(maker *m, seat *s, long round) {
    int kept = (int)(round % ALIVE);
    drop(s, kept);
    poll(s);
    birth(m, s, kept, 0);
    copy(s, LAST, kept);
    for (uint32_t label = 1; label < OBJECTS; label++) {
        birth(m, s, NEXT, label);
        link_to(s, LAST, 0, NEXT);
        copy(s, LAST, NEXT);
    }
    link_to(s, LAST, 0, kept);
}
