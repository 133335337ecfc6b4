/* Factorials and powers in big numbers, with structs handed on by value. */
#include <stdio.h>

#define DIGITS 60
#define BASE 10000

typedef struct {
    int digit[DIGITS];
    int length;
} big;

static big from_int(int n)
{
    big b = { { 0 }, 0 };
    do {
        b.digit[b.length++] = n % BASE;
        n /= BASE;
    } while (n);
    return b;
}

static big times(big a, int k)
{
    int i, carry = 0;
    for (i = 0; i < a.length; i++) {
        carry += a.digit[i] * k;
        a.digit[i] = carry % BASE;
        carry /= BASE;
    }
    while (carry) {
        a.digit[a.length++] = carry % BASE;
        carry /= BASE;
    }
    return a;
}

static big add(big a, big b)
{
    big sum;
    int i, carry = 0;
    sum.length = a.length > b.length ? a.length : b.length;
    for (i = 0; i < sum.length || carry; i++) {
        if (i < a.length)
            carry += a.digit[i];
        if (i < b.length)
            carry += b.digit[i];
        if (i == sum.length)
            sum.length++;
        sum.digit[i] = carry % BASE;
        carry /= BASE;
    }
    return sum;
}

static void print(const big *b)
{
    int i = b->length - 1;
    printf("%d", b->digit[i]);
    while (--i >= 0)
        printf("%04d", b->digit[i]);
    putchar('\n');
}

int main(void)
{
    big f = from_int(1), a = from_int(0), b = from_int(1);
    int n;
    for (n = 1; n <= 40; n++)
        f = times(f, n);
    print(&f);
    for (n = 0; n < 200; n++) {
        big next = add(a, b);
        a = b;
        b = next;
    }
    print(&a);
    return f.length;
}
