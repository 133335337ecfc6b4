/* Loops whose conditions and steps have side effects, with continue and break. */
#include <stdio.h>

static int next(int *state)
{
    *state = *state * 5 + 1;
    return *state % 97;
}

static int digits(unsigned n)
{
    int count = 0;
    do
        count++;
    while (n /= 10);
    return count;
}

int main(void)
{
    int a[12], *p, *end, i, j, n = 0, state = 7, sum = 0;

    for (p = a, end = a + 12; p != end; )
        *p++ = next(&state);
    for (i = 0, j = 11; i < j; i++, j--) {
        int t;
        if (a[i] % 2 == 0)
            continue;
        if (a[i] > 95)
            break;
        t = a[i], a[i] = a[j], a[j] = t;
    }
    for (i = 0; i < 12; i++)
        printf("%d ", a[i]);
    printf("%d %d\n", i, j);
    i = 12;
    while (i-- > 0) {
        if (a[i] % 3)
            continue;
        sum += a[i];
    }
    printf("%d %d\n", i, sum);
    i = -1;
    while (++i < 12 && a[i] != a[11])
        n++;
    printf("%d %d\n", i, n);
    do {
        if (i % 2) {
            sum -= i;
            continue;
        }
        sum += i;
    } while (--i > 0 && sum < 1000);
    printf("%d %d\n", i, sum);
    for (n = 1; n < 100000000 / 10; n *= 10)
        printf("%d", digits(n));
    printf("\n");
    for (i = 0; ; ) {
        if (i++ >= 5)
            break;
        for (j = i; j; ) {
            if (j-- == 3)
                continue;
            putchar('0' + j);
        }
    }
    putchar('\n');
    for (int x = 0, y = 20; x < y; x += 3, y -= 2)
        printf("%d,%d ", x, y);
    while (1) {
        if (n % 7 == 0)
            break;
        n++;
    }
    printf("%d\n", n);
    return sum % 100;
}
