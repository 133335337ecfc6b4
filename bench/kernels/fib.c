#include "regions.h"

/* Calls: a Fibonacci number by the recursion that defines it.
   Input: one byte, n, at most 46. Output: the Fibonacci number of n. */

/* Prints a number in decimal digits. */
void print_unsigned(unsigned number) {
    if (number > 9) print_unsigned(number / 10);
    putchar('0' + number % 10);
}

int fibonacci(int n) {
    if (n < 2) return n;
    return fibonacci(n - 1) + fibonacci(n - 2);
}

int main(void) {
    print_unsigned(fibonacci(getchar()));
    putchar('\n');
    return 0;
}
