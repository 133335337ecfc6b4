#include "regions.h" /* In C: gcc -std=gnu11 -funsigned-char -fwrapv -fno-builtin -ftrivial-auto-var-init=zero -o waiting waiting.c */

/* A deletion inside a called function. The caller waits, and what it still uses counts: `first` is read
   after the call, so it must not lead into the region. Here it leads into another. */
struct item {
    int value;
    struct item *next;
};

void drop(region r) deletes {
    deleteregion(r);
}

int main(void) deletes {
    region keep = newregion(), scratch = newregion();
    struct item *first = ralloc(keep, struct item), *second = ralloc(scratch, struct item);
    second->value = 7;
    first->value = second->value + 1;
    drop(scratch);
    putchar('0' + first->value);
    putchar('\n');
    drop(keep);
    return 0;
}
