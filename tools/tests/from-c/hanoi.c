/* Recursion with local arrays: towers, Ackermann, flood fill, and strings built on the way down. */
#include <stdio.h>
#include <string.h>

static int moves;

static void hanoi(int n, char from, char to, char by)
{
    if (n == 0)
        return;
    hanoi(n - 1, from, by, to);
    if (++moves <= 5)
        printf("%c%c ", from, to);
    hanoi(n - 1, by, to, from);
}

static int ackermann(int m, int n)
{
    return m == 0 ? n + 1 : n == 0 ? ackermann(m - 1, 1) : ackermann(m - 1, ackermann(m, n - 1));
}

static void binary(int n, char *prefix, int length)
{
    char longer[8];
    if (length == n) {
        printf("%s ", prefix);
        return;
    }
    strcpy(longer, prefix);
    longer[length] = '0';
    longer[length + 1] = '\0';
    binary(n, longer, length + 1);
    longer[length] = '1';
    binary(n, longer, length + 1);
}

static char field[5][7] = { "..##..", ".#..#.", "#....#", ".#..#.", "..##.." };

static int fill(int r, int c)
{
    int count;
    if (r < 0 || r > 4 || c < 0 || c > 5 || field[r][c] != '.')
        return 0;
    field[r][c] = 'o';
    count = 1;
    count += fill(r - 1, c);
    count += fill(r + 1, c);
    count += fill(r, c - 1);
    return count + fill(r, c + 1);
}

struct pair { int low, high; };

static struct pair range(const int *a, int n)
{
    struct pair left, right;
    if (n == 1) {
        struct pair one = { *a, *a };
        return one;
    }
    left = range(a, n / 2);
    right = range(a + n / 2, n - n / 2);
    if (right.low < left.low)
        left.low = right.low;
    if (right.high > left.high)
        left.high = right.high;
    return left;
}

int main(void)
{
    int numbers[] = { 5, 3, 9, -2, 7, 4 };
    struct pair p;
    hanoi(6, 'A', 'C', 'B');
    printf("%d\n", moves);
    printf("%d\n", ackermann(2, 3));
    binary(3, "", 0);
    printf("\n%d\n", fill(2, 2));
    for (int r = 0; r < 5; r++)
        puts(field[r]);
    p = range(numbers, 6);
    printf("%d %d\n", p.low, p.high);
    return moves;
}
