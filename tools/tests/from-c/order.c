/* Side effects inside of expressions wherever C fixes their order. */
#include <stdio.h>

struct counter { int hits; int cells[4]; struct counter *next; };

static int log_size, log_cells[32];

static int mark(int n)
{
    log_cells[log_size++] = n;
    return n;
}

static struct counter one, two = { 3, { 1, 2, 3, 4 }, &one };

static struct counter *both(struct counter *c) { mark(9); return c->next ? c->next : c; }

static int drain(struct counter *c)
{
    return c->hits > 0 && c->hits-- && drain(c) ? 1 : c->hits;
}

int main(void)
{
    int a[8] = { 0 }, i = 0, j, k, *p = a;
    char c;
    unsigned char u = 255;

    a[i++] = 5;
    a[i] = i + 1;
    *++p += 10;
    j = (i = 3) + 1;
    a[j] = k = i--;
    printf("%d %d %d %d %d %d\n", a[0], a[1], a[4], i, j, k);
    both(&two)->hits = two.hits + 1;
    both(&two)->cells[2] += 7;
    two.next->hits++;
    ++two.next->cells[two.hits];
    printf("%d %d %d\n", one.hits, one.cells[2], one.cells[3]);
    if (mark(0) && mark(1) || mark(2) && !mark(3))
        mark(50);
    (void)(mark(6) ? mark(7) : mark(8));
    k = mark(0) || (j = mark(5));
    k += j > 4 ? j-- : ++j;
    c = 'a';
    c++;
    u++;
    k = u++ == 0 ? u : -1;
    p = &a[6];
    *p-- = k, *p = k + 1;
    p[-1] = *p ? 4 : 6;
    for (i = 0; i < 8; i++)
        printf("%d%c", a[i], i < 7 ? ',' : '\n');
    printf("%c %d %d %d\n", c, u, j, k);
    i = 2;
    i += i < 5 ? 10 : 20, j = i;
    while (j-- > i - 3 && (k = j * 2, k != 0))
        ;
    printf("%d %d %d %d\n", i, j, k, drain(&two));
    for (i = 0; i < log_size; i++)
        printf("%d ", log_cells[i]);
    printf("\n");
    return log_size;
}
