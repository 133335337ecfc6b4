/* from-c: --region scratch */
/* A program that has regions already: what it allocates by malloc goes into the parameter, or the global, scratch. */
#include "regions.h"
#undef malloc
#include <stdlib.h>

typedef struct item { int value; struct item *next; } item;

region scratch;

static item *push(region scratch, item *list, int value)
{
    item *i = malloc(sizeof(item));
    i->value = value;
    i->next = list;
    return i;
}

static int total(const item *list)
{
    int n = 0;
    do
        n += list->value;
    while ((list = list->next) != NULL);
    return n;
}

static int *squares(int n)
{
    int *a = malloc(n * sizeof *a);
    while (n-- > 0)
        a[n] = n * n;
    return a;
}

int main(void) deletes
{
    region first = newregion(), own;
    item *list = NULL;
    int i, sum, *a;
    for (i = 0; i < 10; i++)
        list = push(first, list, i);
    sum = total(list);
    deleteregion(first);
    scratch = newregion();
    a = squares(8);
    sum += a[7];
    putchar('A' + sum % 26);
    putchar('\n');
    own = scratch;
    scratch = NULL;
    deleteregion(own);
    return sum;
}
