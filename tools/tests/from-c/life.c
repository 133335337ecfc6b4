/* The game of life on a torus. */
#include <stdio.h>
#include <string.h>

enum { ROWS = 10, COLUMNS = 16 };

static char grid[2][ROWS][COLUMNS];
static int now;

static int neighbours(int row, int column)
{
    int count = 0, dr, dc;
    for (dr = -1; dr <= 1; dr++)
        for (dc = -1; dc <= 1; dc++)
            if ((dr || dc) && grid[now][(row + dr + ROWS) % ROWS][(column + dc + COLUMNS) % COLUMNS])
                count++;
    return count;
}

static void generation(void)
{
    int r, c;
    for (r = 0; r < ROWS; r++)
        for (c = 0; c < COLUMNS; c++) {
            int n = neighbours(r, c);
            grid[!now][r][c] = n == 3 || (n == 2 && grid[now][r][c]);
        }
    now = !now;
}

static void show(void)
{
    for (int r = 0; r < ROWS; r++) {
        for (int c = 0; c < COLUMNS; c++)
            putchar(grid[now][r][c] ? '#' : '.');
        putchar('\n');
    }
    putchar('\n');
}

int main(void)
{
    static const char *const start[] = {
        "..#", "#.#", ".##",
    };
    int r, c, population = 0;

    memset(grid, 0, sizeof grid);
    for (r = 0; r < 3; r++)
        for (c = 0; start[r][c] != '\0'; c++)
            grid[0][r][c] = start[r][c] == '#';
    for (r = 0; r < 20; r++)
        generation();
    show();
    for (r = 0; r < ROWS; r++)
        for (c = 0; c < COLUMNS; c++)
            population += grid[now][r][c] != 0;
    return population;
}
