#include "regions.h"

/* Loops and sums: how many steps the Collatz sequences take that begin at 1, 2, .. up to 500 times n.
   Input: one byte, n, at most 200. Output: a checksum of the steps. */

/* Prints a number in decimal digits. */
void print_unsigned(unsigned number) {
    if (number > 9) print_unsigned(number / 10);
    putchar('0' + number % 10);
}

int main(void) {
    int last = getchar() * 500, first, number, steps;
    unsigned sum = 0;
    for (first = 1; first <= last; first++) {
        number = first;
        steps = 0;
        while (number != 1) {
            if (number % 2 == 0) number = number / 2; else number = 3 * number + 1;
            steps++;
        }
        sum = sum * 31 + steps;
    }
    print_unsigned(sum);
    putchar('\n');
    return 0;
}
