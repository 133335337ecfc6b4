#include "../regions.h"

/* A stack of numbers, in a region of its own. */
struct cell {
    int value;
    struct cell *sameregion below;
};

struct stack {
    struct cell *sameregion top;
    int depth;
};

struct stack *new_stack(void) {
    return ralloc(newregion(), struct stack);
}

void push(struct stack *s, int value) {
    struct cell *c = ralloc(regionof(s), struct cell);
    c->value = value;
    c->below = s->top;
    s->top = c;
    s->depth++;
}

/* The number on top, which there has to be. */
int pop(struct stack *s) {
    struct cell *c = s->top;
    s->top = c->below;
    s->depth--;
    return c->value;
}

/* The stack and its numbers are gone. */
void free_stack(struct stack *s) deletes {
    region r = regionof(s);
    deleteregion(r);
}
