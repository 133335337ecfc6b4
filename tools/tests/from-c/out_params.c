/* Results through pointers to locals, in functions that call themselves and in others. */
#include <stdio.h>

static int divide(int a, int b, int *quotient, int *remainder)
{
    if (b == 0)
        return -1;
    *quotient = a / b;
    *remainder = a % b;
    return 0;
}

static int gcd(int a, int b, int *x, int *y)
{
    int x1, y1, g;
    if (b == 0) {
        *x = 1;
        *y = 0;
        return a;
    }
    g = gcd(b, a % b, &x1, &y1);
    *x = y1;
    *y = x1 - a / b * y1;
    return g;
}

static void swap(int *a, int *b)
{
    int t = *a;
    *a = *b;
    *b = t;
}

static void permute(int *a, int n, int k, int *count)
{
    int i;
    if (k == n) {
        ++*count;
        for (i = 0; i < n; i++)
            printf("%d%c", a[i], i + 1 < n ? ' ' : '\n');
        return;
    }
    for (i = k; i < n; i++) {
        swap(&a[k], &a[i]);
        permute(a, n, k + 1, count);
        swap(a + k, a + i);
    }
}

static void minmax(const int a[], int n, int *lo, int *hi)
{
    *lo = *hi = *a;
    while (--n > 0) {
        a++;
        if (*a < *lo)
            *lo = *a;
        else if (*a > *hi)
            *hi = *a;
    }
}

int main(void)
{
    int q, r, x, y, count = 0, lo, hi;
    int a[] = { 1, 2, 3 };
    int g;

    if (divide(17, 5, &q, &r) == 0)
        printf("%d %d\n", q, r);
    if (divide(17, 0, &q, &r) != 0)
        printf("no division\n");
    g = gcd(240, 46, &x, &y);
    printf("%d = %d * 240 + %d * 46\n", g, x, y);
    permute(a, 3, 0, &count);
    minmax(a, sizeof(a) / sizeof(*a), &lo, &hi);
    printf("%d %d %d\n", count, lo, hi);
    return 10 * count + hi - lo;
}
