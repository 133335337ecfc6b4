#include "regions.h" /* In C: gcc -std=gnu11 -funsigned-char -fwrapv -fno-builtin -ftrivial-auto-var-init=zero -o scratch scratch.c */

/* A region for each round, with all that the round needs. Returns how many of the first hundred sums
   0, 0 + 1, 0 + 1 + 2, .. are divisible by 33, which are 13. */
int last_sum(region scratch, int length) {
    int *sums = rarrayalloc(scratch, length + 1, int);
    int i;
    for (i = 1; i <= length; i++) sums[i] = sums[i - 1] + i;
    return sums[length];
}

int main(void) deletes {
    region scratch;
    int round, found = 0;
    for (round = 0; round < 100; round++) {
        scratch = newregion();
        if (last_sum(scratch, round) % 33 == 0) found++;
        deleteregion(scratch);
    }
    return found;
}
