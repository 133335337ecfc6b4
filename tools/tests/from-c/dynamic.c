/* from-c: --unsigned-char */
/* Tables of dynamic programming: the longest common part, a knapsack, the distance of words. */
#include <stdio.h>
#include <string.h>

#define MAX 32
#define MIN3(a, b, c) ((a) < (b) ? ((a) < (c) ? (a) : (c)) : ((b) < (c) ? (b) : (c)))

typedef int table[MAX + 1][MAX + 1];

static int common(const char *a, const char *b, char *out)
{
    table t;
    int n = strlen(a), m = strlen(b), i, j, k;
    memset(t, 0, sizeof(t));
    for (i = 1; i <= n; i++)
        for (j = 1; j <= m; j++)
            t[i][j] = a[i - 1] == b[j - 1] ? t[i - 1][j - 1] + 1
                    : t[i - 1][j] > t[i][j - 1] ? t[i - 1][j] : t[i][j - 1];
    k = t[i = n][j = m];
    out[k] = '\0';
    while (i && j) {
        if (a[i - 1] == b[j - 1])
            out[--k] = a[--i], j--;
        else if (t[i - 1][j] > t[i][j - 1])
            i--;
        else
            j--;
    }
    return t[n][m];
}

static int distance(const char *a, const char *b)
{
    static int d[2][MAX + 1];
    int i, j, now = 0;
    for (j = 0; j <= (int)strlen(b); j++)
        d[0][j] = j;
    for (i = 1; a[i - 1]; i++) {
        int *before = d[now], *row = d[now = !now];
        row[0] = i;
        for (j = 1; b[j - 1]; j++)
            row[j] = MIN3(before[j] + 1, row[j - 1] + 1, before[j - 1] + (a[i - 1] != b[j - 1]));
    }
    return d[now][strlen(b)];
}

static int knapsack(const int weight[], const int worth[], int n, int room)
{
    int best[101] = { 0 };
    for (int i = 0; i < n; i++)
        for (int w = room; w >= weight[i]; w--)
            if (best[w - weight[i]] + worth[i] > best[w])
                best[w] = best[w - weight[i]] + worth[i];
    return best[room];
}

int main(void)
{
    const int weight[] = { 12, 2, 1, 4, 1, 30 }, worth[] = { 4, 2, 1, 10, 2, 25 };
    char out[MAX + 1];
    int n = common("the quick brown fox", "that thick crow of oxen", out);
    printf("%d [%s]\n", n, out);
    printf("%d ", distance("kitten", "sitting"));
    printf("%d ", distance("", "abc"));
    printf("%d\n", distance("flaw", "lawn"));
    printf("%d %d\n", knapsack(weight, worth, 6, 15), knapsack(weight, worth, 6, 40));
    return n;
}
