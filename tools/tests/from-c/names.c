/* from-c: --unsigned-char */
/* Records with names in them, which are handed on as pointers; sorting an array of pointers. */
#include <stdio.h>
#include <stdlib.h>
#include <string.h>

#define MOST 8

struct date { int day, month, year; };
struct person {
    char name[16];
    struct date born;
    int scores[3];
};

static struct person people[MOST];
static int count;

static struct person *add(const char *name, int day, int month, int year)
{
    struct person *p = &people[count++];
    strcpy(p->name, name);
    p->born.day = day;
    p->born.month = month;
    p->born.year = year;
    return p;
}

static int earlier(const struct date *a, const struct date *b)
{
    if (a->year != b->year)
        return a->year < b->year;
    if (a->month != b->month)
        return a->month < b->month;
    return a->day < b->day;
}

static int best(const int *scores, int n)
{
    int b = scores[0];
    while (n--)
        if (scores[n] > b)
            b = scores[n];
    return b;
}

static void sort(struct person **all, int n)
{
    int i, j;
    for (i = 1; i < n; i++) {
        struct person *p = all[i];
        for (j = i; j > 0 && earlier(&p->born, &all[j - 1]->born); j--)
            all[j] = all[j - 1];
        all[j] = p;
    }
}

int main(void)
{
    struct person *order[MOST], *p, copy;
    int i;

    p = add("Ada", 10, 12, 1815);
    p->scores[1] = 9;
    p = add("Grace", 9, 12, 1906);
    p->scores[2] = 7;
    add("Alan", 23, 6, 1912)->scores[0] = 8;
    add("Kurt", 28, 4, 1906);
    for (i = 0; i < count; i++)
        order[i] = people + i;
    sort(order, count);
    for (i = 0; i < count; i++)
        printf("%-6s|%02d.%02d.%d|%d\n", order[i]->name, order[i]->born.day, order[i]->born.month,
               order[i]->born.year, best(order[i]->scores, 3));
    copy = *order[0];
    strcat(copy.name, " L.");
    copy.born.year++;
    printf("%s %s %d %d\n", copy.name, order[0]->name, copy.born.year, order[0]->born.year);
    p = malloc(2 * sizeof(struct person));
    p[1] = copy;
    p[0] = people[2];
    p[0].name[0] = 'a';
    printf("%s %s %s %d\n", p[0].name, p[1].name, people[2].name, best(p[1].scores, 3));
    free(p);
    return (int)strlen(copy.name);
}
