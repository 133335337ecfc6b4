/* Sparse polynomials as lists, with pointers to pointers and a struct that holds a list. */
#include <stdio.h>
#include <stdlib.h>

typedef struct term *poly;
struct term { int factor, power; poly next; };

static poly term(int factor, int power, poly next)
{
    poly t = malloc(sizeof(struct term));
    t->factor = factor, t->power = power, t->next = next;
    return t;
}

static void insert(poly *p, int factor, int power)
{
    if (!factor)
        return;
    for (; *p && (*p)->power > power; p = &(*p)->next)
        ;
    if (*p && (*p)->power == power) {
        if (((*p)->factor += factor) == 0) {
            poly gone = *p;
            *p = gone->next;
            free(gone);
        }
    } else
        *p = term(factor, power, *p);
}

static poly product(poly a, poly b)
{
    poly r = NULL, s;
    for (; a; a = a->next)
        for (s = b; s; s = s->next)
            insert(&r, a->factor * s->factor, a->power + s->power);
    return r;
}

static int value(poly p, int x)
{
    int sum = 0, at = p ? p->power : 0;
    for (; p; p = p->next) {
        while (at > p->power)
            sum *= x, at--;
        sum += p->factor;
    }
    while (at-- > 0)
        sum *= x;
    return sum;
}

static void print(poly p)
{
    int first = 1;
    if (!p)
        printf("0");
    for (; p; p = p->next, first = 0) {
        if (!first || p->factor < 0)
            printf("%s", p->factor < 0 ? first ? "-" : " - " : " + ");
        if (abs(p->factor) != 1 || p->power == 0)
            printf("%d", abs(p->factor));
        if (p->power)
            putchar('x');
        if (p->power > 1)
            printf("^%d", p->power);
    }
    printf("\n");
}

int main(void)
{
    poly a = NULL, b = NULL, c;
    insert(&a, 1, 1);
    insert(&a, -1, 0);
    insert(&b, 1, 2);
    insert(&b, 1, 1);
    insert(&b, 1, 0);
    print(a);
    print(b);
    c = product(a, b);
    print(c);
    print(product(c, c));
    insert(&c, 1, 0);
    insert(&c, -1, 3);
    print(c);
    return value(product(a, b), 5);
}
