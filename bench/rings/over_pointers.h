/* What the allocators over Boehm's collector and over malloc have in common: registers are pointers on the thread's stack. An object has a
 * word for its label, as a slot of the Recycler has, and its fields. */
typedef struct object {
    uint64_t label;
    struct object *fields[FIELDS];
} object;

struct seat {
    int thread;
    object *registers[ALL_REGISTERS];
};

static void close_heap(void) {
}

static void enter(seat *s, int thread) {
    s->thread = thread;
    for (int reg = 0; reg < ALL_REGISTERS; reg++) {
        s->registers[reg] = NULL;
    }
}

/* The list is read once more: so no compiler forgets it before, and the collector sees it on this thread's stack. */
static void leave(seat *s) {
    int live = 0;
    for (object *it = s->registers[LIST]; it != NULL; it = it->fields[0]) {
        live++;
    }
    if (live != (s->thread == 0 ? LIVE : 0)) {
        fail("the list has %d objects", live);
    }
}

static void poll(seat *s) {
    (void)s;
}

static void give_way(seat *s) {
    (void)s;
    fail("no memory is left for an object");
}

static bool made(seat *s, int reg, uint32_t label, object *it) {
    s->registers[reg] = it;
    if (it != NULL) {
        it->label = label;
        for (int field = 0; field < FIELDS; field++) {
            it->fields[field] = NULL;
        }
    }
    return it != NULL;
}

static void link_to(seat *s, int from, int field, int to) {
    s->registers[from]->fields[field] = s->registers[to];
}

static bool follow(seat *s, int reg, int field) {
    object *from = s->registers[reg];
    s->registers[reg] = from == NULL ? NULL : from->fields[field];
    return s->registers[reg] != NULL;
}

static void copy(seat *s, int to, int from) {
    s->registers[to] = s->registers[from];
}

static void empty(seat *s, int reg) {
    s->registers[reg] = NULL;
}
