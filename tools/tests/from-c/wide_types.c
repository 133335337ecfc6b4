/* from-c: --int-is-enough --unsigned-char */
/* long, size_t and the like, where 32 bits are enough. */
#include <stdio.h>
#include <stdlib.h>
#include <string.h>
#include <stdint.h>

typedef struct { size_t length, room; char *text; } string;

static long power(long base, unsigned exponent)
{
    long result = 1L;
    for (; exponent; exponent >>= 1) {
        if (exponent & 1)
            result *= base;
        if (exponent > 1)
            base *= base;
    }
    return result;
}

static unsigned long long mix(unsigned long long n)
{
    n ^= n >> 7;
    return n % 1000ull;
}

static void append(string *s, const char *more)
{
    size_t n = strlen(more);
    if (s->length + n + 1 > s->room) {
        char *old = s->text;
        s->room = (s->length + n + 1) * 2;
        s->text = malloc(s->room);
        memcpy(s->text, old, s->length);
        free(old);
    }
    memcpy(s->text + s->length, more, n + 1);
    s->length += n;
}

static long count_if(const int *a, size_t n, long limit)
{
    long count = 0;
    for (size_t i = 0; i < n; i++)
        if (a[i] > limit)
            ++count;
    return count;
}

int main(void)
{
    static const int a[] = { -5, 3, -1, 8, 0, 12 };
    string s = { 0, 4, malloc(4) };
    short sh = (short)70000;
    long difference;
    int64_t small = -1;
    unsigned one = 1;

    append(&s, "abc");
    append(&s, "defgh");
    append(&s, "");
    printf("%s %zu %lu\n", s.text, s.length, (unsigned long)s.room);
    printf("%ld %llu %d\n", power(3, 9), mix(123456), sh);
    printf("%ld %ld\n", count_if(a, sizeof a / sizeof a[0], -1), count_if(a, 3, 0L));
    difference = small - one;
    printf("%ld %d\n", difference, small < one);
    for (long i = 3; i-- > 0; )
        printf("%ld ", i);
    printf("%d\n", (int)strlen(s.text) - 10);
    return (int)(s.length % 256);
}
