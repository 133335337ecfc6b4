#include "regions.h" /* In C: gcc -std=gnu11 -funsigned-char -fwrapv -fno-builtin -ftrivial-auto-var-init=zero -o ring ring.c */

/* Two regions that name each other. The first can be deleted once the pointer into it is gone, and
   its own pointers go with it. */
struct node {
    struct node *other;
};

int main(void) deletes {
    region r = newregion(), s = newregion();
    struct node *a = ralloc(r, struct node), *b = ralloc(s, struct node);
    a->other = b;
    b->other = a;
    b->other = NULL;
    deleteregion(r);
    putchar('r');
    deleteregion(s);
    putchar('s');
    putchar('\n');
    return 0;
}
