#include "regions.h" /* In C: gcc -std=gnu11 -funsigned-char -fwrapv -fno-builtin -ftrivial-auto-var-init=zero -o list list.c */

/* The squares of 1 to 9 in a list that lies in one region. */
struct cell {
    int value;
    struct cell *sameregion next;
};

struct cell *push(region r, struct cell *list, int value) {
    struct cell *c = ralloc(r, struct cell);
    c->value = value;
    c->next = list;
    return c;
}

void print(int number) {
    if (number > 9) print(number / 10);
    putchar('0' + number % 10);
}

int main(void) deletes {
    region r = newregion();
    struct cell *list = NULL;
    int i, sum = 0;
    for (i = 1; i <= 9; i++) list = push(r, list, i * i);
    while (list) {
        sum += list->value;
        list = list->next;
    }
    print(sum);
    putchar('\n');
    deleteregion(r);
    return 0;
}
