/* Fractions as structs by value, with operators as functions. */
#include <stdio.h>
#include <assert.h>

struct fraction { int over, under; };
typedef struct fraction fraction;

static int gcd(int a, int b)
{
    return b ? gcd(b, a % b) : a < 0 ? -a : a;
}

static fraction reduced(int over, int under)
{
    int g = gcd(over, under);
    assert(under != 0);
    if (under < 0)
        g = -g;
    return (fraction){ over / g, under / g };
}

static fraction add(fraction a, fraction b)
{
    return reduced(a.over * b.under + b.over * a.under, a.under * b.under);
}

static fraction multiply(fraction a, fraction b)
{
    fraction c = reduced(a.over, b.under), d = reduced(b.over, a.under);
    return (fraction){ .over = c.over * d.over, .under = c.under * d.under };
}

static fraction power(fraction f, int n)
{
    fraction half;
    if (n == 0)
        return (fraction){ 1, 1 };
    half = power(f, n / 2);
    half = multiply(half, half);
    return n % 2 ? multiply(half, f) : half;
}

static int less(fraction a, fraction b) { return a.over * b.under < b.over * a.under; }

static void show(const char *name, fraction f)
{
    printf("%s = %d", name, f.over);
    if (f.under != 1)
        printf("/%d", f.under);
    printf("\n");
}

static fraction global = { 1, 3 };

static int change(fraction f)
{
    global.over = 100;
    return f.over + global.over;
}

int main(void)
{
    fraction sum = { 0, 1 }, parts[3] = { { 1, 2 }, { 1, 3 }, { 1, 6 } };
    const fraction *p;
    int i;
    for (i = 0; i < 3; i++)
        sum = add(sum, parts[i]);
    show("sum", sum);
    show("power", power((fraction){ -2, 3 }, 7));
    for (p = parts; p != parts + 2; ++p)
        if (less(p[1], *p))
            show("less", p[1]);
    i = change(global);
    printf("%d %d\n", i, global.over);
    show("product", multiply(add(parts[0], parts[2]), reduced(9, -4)));
    return power(parts[0], 5).under;
}
