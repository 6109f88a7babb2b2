/* Complete binary trees of DEPTH, so of 2^(DEPTH + 1) - 1 objects, from the leaves up. A thread drops each before it makes the next. */
enum { FIELDS = 2, OBJECTS = (2 << DEPTH) - 1, REGISTERS = DEPTH + 2, KEPT = 0 };

/* A thread polls behind each tree of this depth, which has seven objects. */
enum { POLLED = 2 };

#include "makers.h"

/* Lets the register name a tree. It uses depth + 1 registers behind that one, and none for a leaf. */
static void grow(maker *m, seat *s, int reg, int depth) {
    int left = reg, right = reg + 1, root = reg + 2;
    if (depth == 0) {
        birth(m, s, reg, 0);
        return;
    }
    grow(m, s, left, depth - 1);
    grow(m, s, right, depth - 1);
    birth(m, s, root, (uint32_t)depth);
    link_to(s, root, 0, left);
    link_to(s, root, 1, right);
    copy(s, reg, root);
    if (depth == POLLED) {
        poll(s);
    }
}

/* Parts of the tree are named by other registers too. */
static void replace(maker *m, seat *s, long round) {
    (void)round;
    grow(m, s, 0, DEPTH);
    for (int reg = 1; reg < REGISTERS; reg++) {
        empty(s, reg);
    }
    drop(s, 0);
    poll(s);
}
