#include "regions.h"

/* From region to region: 5,000 regions have an object each, and each object leads to that of another
   region. All of them are read, and then all are changed, in each round.
   Input: one byte, how many times ten rounds. Output: a checksum of the values. */

struct cell {
    int value;
    struct cell *next;
};

/* Prints a number in decimal digits. */
void print_unsigned(unsigned number) {
    if (number > 9) print_unsigned(number / 10);
    putchar('0' + number % 10);
}

int main(void) {
    int rounds = getchar() * 10, round, i;
    unsigned sum = 0;
    struct cell *first = NULL, *c;
    for (i = 0; i < 5000; i++) {
        c = ralloc(newregion(), struct cell);
        c->value = i;
        c->next = first;
        first = c;
    }
    for (round = 0; round < rounds; round++) {
        for (c = first; c; c = c->next) sum = sum * 31 + c->value;
        for (c = first; c; c = c->next) c->value = c->value + 1;
    }
    print_unsigned(sum);
    putchar('\n');
    return 0;
}
