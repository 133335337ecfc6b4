/* Static locals, globals with initial values, names that hide others, extern. */
#include <stdio.h>

int total = 100, table[5] = { 1, 2, [4] = 5 };
static const char *greeting = "hi";
char name[] = "static", padded[8] = { 'a', 'b' };
unsigned mask = 0xffffffff;
int lowest = -2147483647 - 1;
static int *where = &total, *second = table + 1;
struct pair { int a; char b; const char *c; } pairs[] = { { 1, 'x', "one" }, { 2, 'y', "two" }, { 0 } };
extern int later;

static int counter(void)
{
    static int count = 10;
    static int history[3];
    history[count % 3] += count;
    return count++ + history[0];
}

static int shadow(int total)
{
    int r = total;
    {
        int total = r * 2;
        {
            int total = r * 3, region = 4;
            r += total + region;
        }
        r += total;
    }
    for (int r = 0; r < 3; r++)
        total += r;
    return r + total;
}

int later = 3;

int main(void)
{
    extern int later;
    int deletes = 0, i;
    struct pair *p;

    for (i = 0; i < 4; i++)
        printf("%d ", counter());
    printf("\n%d %d\n", shadow(1), total);
    *where += later;
    *second = 9;
    for (i = 0; i < 5; i++)
        deletes += table[i];
    printf("%d %d %s %s %s %u %d\n", total, deletes, greeting, name, padded, mask, lowest);
    for (p = pairs; p->a; p++)
        printf("%d%c%s ", p->a, p->b, p->c);
    printf("%d %d\n", (int)sizeof(pairs), (int)sizeof name);
    return deletes;
}
