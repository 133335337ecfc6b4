/* Eight queens, by backtracking with three tables. */
#include <stdio.h>
#include <stdbool.h>

#define N 8

static int column_of[N];
static bool column_used[N], up[2 * N - 1], down[2 * N - 1];
static int solutions;

static void print(void)
{
    for (int r = 0; r < N; r++) {
        for (int c = 0; c < N; c++)
            putchar(column_of[r] == c ? 'Q' : '.');
        putchar('\n');
    }
    putchar('\n');
}

static void place(int row)
{
    if (row == N) {
        if (solutions++ == 0)
            print();
        return;
    }
    for (int c = 0; c < N; c++) {
        if (column_used[c] || up[row + c] || down[row - c + N - 1])
            continue;
        column_of[row] = c;
        column_used[c] = up[row + c] = down[row - c + N - 1] = true;
        place(row + 1);
        column_used[c] = up[row + c] = down[row - c + N - 1] = false;
    }
}

int main(void)
{
    place(0);
    printf("%d solutions\n", solutions);
    return solutions;
}
