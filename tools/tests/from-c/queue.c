/* A ring buffer and breadth first search in a maze. */
#include <stdio.h>
#include <stdbool.h>

#define ROWS 7
#define COLUMNS 11
#define CELLS (ROWS * COLUMNS)

typedef struct { int row, column; } cell;

static char maze[ROWS][COLUMNS + 1] = {
    "###########",
    "#S..#.....#",
    "#.#.#.###.#",
    "#.#...#...#",
    "#.#####.#.#",
    "#.......#E#",
    "###########",
};
static int distance[ROWS][COLUMNS];
static struct {
    cell cells[CELLS];
    int first, count;
} queue;

static bool empty(void) { return queue.count == 0; }

static void put(cell c)
{
    queue.cells[(queue.first + queue.count++) % CELLS] = c;
}

static cell take(void)
{
    cell c = queue.cells[queue.first];
    queue.first = (queue.first + 1) % CELLS;
    queue.count--;
    return c;
}

static bool find(char what, cell *found)
{
    int r, c;
    for (r = 0; r < ROWS; r++)
        for (c = 0; c < COLUMNS; c++)
            if (maze[r][c] == what) {
                found->row = r;
                found->column = c;
                return true;
            }
    return false;
}

int main(void)
{
    static const int steps[4][2] = { { 0, 1 }, { 1, 0 }, { 0, -1 }, { -1, 0 } };
    cell start, end;
    bool reached = false;
    int r, c;

    if (!find('S', &start) || !find('E', &end))
        return 1;
    distance[start.row][start.column] = 1;
    put(start);
    while (!empty() && !reached) {
        cell here = take();
        for (int k = 0; k < 4; k++) {
            cell there = { here.row + steps[k][0], here.column + steps[k][1] };
            if (maze[there.row][there.column] == '#' || distance[there.row][there.column])
                continue;
            distance[there.row][there.column] = distance[here.row][here.column] + 1;
            if (there.row == end.row && there.column == end.column) {
                reached = true;
                break;
            }
            put(there);
        }
    }
    for (r = 0; r < ROWS; r++) {
        for (c = 0; c < COLUMNS; c++)
            if (distance[r][c])
                printf("%3d", distance[r][c] - 1);
            else
                printf("  %c", maze[r][c]);
        putchar('\n');
    }
    printf("%s in %d steps\n", reached ? "reached" : "not reached", distance[end.row][end.column] - 1);
    return queue.count;
}
