/* Nested conditionals, commas, and side effects in conditions. */
#include <stdio.h>

static int calls;

static int f(int n) { calls++; return n * 2; }

static const char *size(int n)
{
    return n < 0 ? "negative" : n == 0 ? "zero" : n < 10 ? "small" : n < 100 ? "middling" : "large";
}

static int sign(int n) { return n ? n > 0 ? 1 : -1 : 0; }

static int clamp(int n, int low, int high)
{
    return (n = n < low ? low : n) > high ? high : n;
}

int main(void)
{
    int values[] = { -5, 0, 7, 42, 1000 }, i, n, total = 0, last = -1;
    unsigned u = 3;
    int *p = values, *q = NULL;

    for (i = 0, n = sizeof values / sizeof *values; i < n; i++)
        printf("%s %d %d\n", size(values[i]), sign(values[i]), clamp(values[i], -1, 50));
    i = 0;
    while (i < n && (total += values[i]) < 40)
        last = values[i++];
    printf("%d %d %d\n", i, total, last);
    if ((n = f(3)) > 5 && (i = f(n)) > 20 || f(i) == 0)
        printf("first\n");
    else
        printf("%d %d %d\n", n, i, calls);
    q = q ? q : p + 1;
    n = *q++ ? 1 : (i++, *q);
    printf("%d %d %d\n", n, i, q == &values[2]);
    n = (i = 5, i++, i) + (calls > 2 ? f(1) : -1);
    printf("%d\n", n);
    printf("%d %d\n", i > 3 ? -1 < (int)u : -1, (i > 100 ? -1 : u) > 2);
    i > 5 ? (void)f(1) : (void)(n = 0);
    calls > 4 && (n = 77);
    calls > 100 || (i = -i);
    printf("%d %d %d\n", calls, n, i);
    for (; i++ < 0 ? 1 : (n -= 10) > 50; )
        total--;
    do {
        total += i;
    } while (i-- > 0 && total < 100);
    printf("%d %d %d\n", i, n, total);
    return total & 127;
}
