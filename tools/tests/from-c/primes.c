/* The sieve of Eratosthenes, and a test by division. */
#include <stdio.h>

#define LIMIT 200

static unsigned char composite[LIMIT + 1];

static int is_prime(int n)
{
    if (n < 2)
        return 0;
    for (int d = 2; d * d <= n; d++)
        if (n % d == 0)
            return 0;
    return 1;
}

int main(void)
{
    int i, j, count = 0, column = 0;

    composite[0] = composite[1] = 1;
    for (i = 2; i * i <= LIMIT; i++)
        if (!composite[i])
            for (j = i * i; j <= LIMIT; j += i)
                composite[j] = 1;
    for (i = 0; i <= LIMIT; i++) {
        if (composite[i] == is_prime(i)) {
            printf("%d differs\n", i);
            return 1;
        }
        if (composite[i])
            continue;
        count++;
        printf("%4d", i);
        if (++column == 10) {
            column = 0;
            putchar('\n');
        }
    }
    if (column)
        putchar('\n');
    printf("%d primes up to %d\n", count, LIMIT);
    return count;
}
