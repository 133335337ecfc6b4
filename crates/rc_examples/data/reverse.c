#include "regions.h" /* In C: gcc -std=gnu11 -funsigned-char -fwrapv -fno-builtin -ftrivial-auto-var-init=zero -o reverse reverse.c */

/* Writes what it reads, from the last byte to the first. */
struct letter {
    char byte;
    struct letter *sameregion before;
};

int main(void) deletes {
    region r = newregion();
    struct letter *last = NULL, *l;
    int c = getchar();
    while (c != EOF) {
        l = ralloc(r, struct letter);
        l->byte = c;
        l->before = last;
        last = l;
        c = getchar();
    }
    while (last) {
        putchar(last->byte);
        last = last->before;
    }
    putchar('\n');
    deleteregion(r);
    return 0;
}
