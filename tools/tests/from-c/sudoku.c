/* A solver of Sudoku over one array, with masks of bits. */
#include <stdio.h>

#define CELL(r, c) board[(r) * 9 + (c)]

static char board[81];
static unsigned short rows[9], columns[9], boxes[9];
static int tried;

static const char *puzzle =
    "53..7...." "6..195..." ".98....6."
    "8...6...3" "4..8.3..1" "7...2...6"
    ".6....28." "...419..5" "....8..79";

static int box(int at) { return at / 27 * 3 + at % 9 / 3; }

static void set(int at, int digit)
{
    board[at] = digit;
    rows[at / 9] |= 1 << digit;
    columns[at % 9] |= 1 << digit;
    boxes[box(at)] |= 1 << digit;
}

static void unset(int at)
{
    unsigned short mask = ~(1 << (unsigned char)board[at]);
    rows[at / 9] &= mask;
    columns[at % 9] &= mask;
    boxes[box(at)] &= mask;
    board[at] = 0;
}

static int solve(int at)
{
    int digit, used;
    while (at < 81 && board[at])
        at++;
    if (at == 81)
        return 1;
    used = rows[at / 9] | columns[at % 9] | boxes[box(at)];
    for (digit = 1; digit <= 9; digit++) {
        if (used & 1 << digit)
            continue;
        set(at, digit);
        tried++;
        if (solve(at + 1))
            return 1;
        unset(at);
    }
    return 0;
}

int main(void)
{
    int i, r, c;
    for (i = 0; i < 81; i++)
        if (puzzle[i] != '.')
            set(i, (unsigned char)puzzle[i] - '0');
    printf("%s\n", solve(0) ? "solved" : "no way");
    for (r = 0; r < 9; r++)
        for (c = 0; c < 9; c++)
            printf("%d%c", (unsigned char)CELL(r, c), c == 8 ? '\n' : c % 3 == 2 ? '|' : ' ');
    printf("%d\n", tried);
    return rows[8] >> 2;
}
