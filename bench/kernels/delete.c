#include "regions.h"

/* A small region, made and freed: it gets one object, with a reference inside and one that leads out, and
   is deleted, n times n times n times. Meanwhile 4,000 cells live for each of the second byte.
   Input: two bytes, n, and how many thousands of cells live, by fours. Output: a checksum. */

struct cell {
    struct cell *first;
    struct cell *second;
};

/* Prints a number in decimal digits. */
void print_unsigned(unsigned number) {
    if (number > 9) print_unsigned(number / 10);
    putchar('0' + number % 10);
}

int main(void) deletes {
    int n = getchar(), live = getchar() * 4000, i;
    unsigned sum = 0;
    region large = newregion(), other = newregion(), small;
    struct cell **kept = rarrayalloc(large, live / 2, struct cell *);
    struct cell *target = ralloc(other, struct cell), *c;
    for (i = 0; i < live / 2; i++) kept[i] = target;
    for (i = 0; i < live / 4; i++) {
        c = ralloc(large, struct cell);
        c->first = target;
        c->second = c;
        kept[i] = c;
    }
    for (i = 0; i < n * n * n; i++) {
        small = newregion();
        c = ralloc(small, struct cell);
        c->first = c;
        c->second = target;
        if (c->first != c->second) sum = sum * 31 + i;
        deleteregion(small);
    }
    if (live > 0) {
        if (kept[0]->first == target) sum++;
    }
    print_unsigned(sum);
    putchar('\n');
    return 0;
}
