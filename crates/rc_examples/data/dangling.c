#include "regions.h" /* In C: gcc -std=gnu11 -funsigned-char -fwrapv -fno-builtin -ftrivial-auto-var-init=zero -o dangling dangling.c */

/* A trap: the region is still named by a local that is read later. */
int main(void) deletes {
    region r = newregion();
    int *p = ralloc(r, int);
    *p = 7;
    deleteregion(r);
    return *p;
}
