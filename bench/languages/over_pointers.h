/* What the heaps over Boehm's collector and over malloc have in common: registers are pointers, and an object has the fields that its kind
 * needs. Several threads use a field at once, so each use is atomic, as over librecycler_c. */
typedef struct object {
    uint32_t label;
    struct object *fields[];
} object;

/* The registers of a thread, and how many objects it made. */
typedef struct seat {
    object *registers[REGISTERS];
    uint64_t made;
} seat;

static seat seats[MOST_THREADS];

/* How many fields an object of a kind has. Which nodes an environment or a vector needs isn't known as they are made. */
static size_t fields_of(kind of) {
    switch (of) {
    case PAIR:
    case CLOSURE: return TOKENS + 1;
    case VECTOR:
    case NODE:
    case FRAME: return FIELDS;
    case TOKEN: return 1;
    default: return 0;
    }
}

static bool poll_crosses(mutator *m) {
    (void)m;
    return true;
}

static object **register_of(mutator *m, int reg) {
    return &((seat *)m->handle)->registers[reg];
}

/* Bytes that are all 0, or NULL. */
static object *bytes_for(kind of, size_t size);

static void make(mutator *m, int reg, kind of, int number) {
    object *it = bytes_for(of, sizeof(object) + fields_of(of) * sizeof(object *));
    check(m, it != NULL, "no slot is free, and no garbage is left to collect");
    it->label = label_of_kind(of, number);
    *register_of(m, reg) = it;
    ((seat *)m->handle)->made++;
}

static void put(mutator *m, int into, int field, int from) {
    __atomic_store_n(&(*register_of(m, into))->fields[field], *register_of(m, from), __ATOMIC_SEQ_CST);
}

static bool get(mutator *m, int to, int from, int field) {
    object *it = *register_of(m, from);
    *register_of(m, to) = it == NULL ? NULL : __atomic_load_n(&it->fields[field], __ATOMIC_SEQ_CST);
    return *register_of(m, to) != NULL;
}

static void copy(mutator *m, int to, int from) {
    *register_of(m, to) = *register_of(m, from);
}

static label label_of(mutator *m, int reg) {
    object *it = *register_of(m, reg);
    return label_from(it == NULL ? 0 : it->label);
}

static bool is_one(mutator *m, int a, int b) {
    return *register_of(m, a) == *register_of(m, b);
}

/* The object that all threads share. */
static void open_seats(void) {
    object *root = bytes_for(VECTOR, sizeof(object) + FIELDS * sizeof(object *));
    require(root != NULL, "no memory is left");
    for (int each = 0; each < MOST_THREADS; each++)
        seats[each].registers[ROOT] = root;
}

static void enter(mutator *m) {
    m->handle = &seats[m->number];
}

static void leave(mutator *m) {
    memset(register_of(m, 0), 0, sizeof seats->registers);
}

/* The first thread has nothing to collect: it waits for the others. */
static void collect(void) {
    nanosleep(&(struct timespec){ 0, 200000 }, NULL);
}

/* How many objects are garbage nobody knows here. */
static total close_heap(void) {
    total objects = { 0, 0 };
    for (int each = 0; each < MOST_THREADS; each++)
        objects.born += seats[each].made;
    return objects;
}
