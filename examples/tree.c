#include "regions.h" /* In C: gcc -std=gnu11 -funsigned-char -fwrapv -fno-builtin -ftrivial-auto-var-init=zero -o tree tree.c */

/* A region with subregions. A pointer up to a parent's region may be kept, and the subregions are
   deleted before it. */
struct node {
    int count;
    struct node *parentptr above;
};

int main(void) deletes {
    region whole = newregion(), part;
    struct node *top = ralloc(whole, struct node), *n;
    int i;
    for (i = 1; i <= 3; i++) {
        part = newsubregion(whole);
        n = ralloc(part, struct node);
        n->above = top;
        n->count = i;
        n->above->count += n->count;
        deleteregion(part);
    }
    putchar('0' + top->count);
    putchar('\n');
    deleteregion(whole);
    return 0;
}
