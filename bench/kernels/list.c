#include "regions.h"

/* A list of 20,000 cells, made and freed: it is built, summed up and deleted with its region, in each
   round anew.
   Input: one byte, the number of rounds. Output: a checksum of the values. */

struct cell {
    int value;
    struct cell *sameregion next;
};

/* Prints a number in decimal digits. */
void print_unsigned(unsigned number) {
    if (number > 9) print_unsigned(number / 10);
    putchar('0' + number % 10);
}

int main(void) deletes {
    int rounds = getchar(), round, i;
    unsigned sum = 0;
    region r;
    struct cell *first, *c;
    for (round = 0; round < rounds; round++) {
        r = newregion();
        first = NULL;
        for (i = 0; i < 20000; i++) {
            c = ralloc(r, struct cell);
            c->value = i ^ round;
            c->next = first;
            first = c;
        }
        for (c = first; c; c = c->next) sum = sum * 31 + c->value;
        deleteregion(r);
    }
    print_unsigned(sum);
    putchar('\n');
    return 0;
}
