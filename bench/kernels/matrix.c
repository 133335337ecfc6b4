#include "regions.h"

/* A matrix product: two square matrices are multiplied, in each round anew.
   Input: two bytes, the number of rounds and the width, at most 100. Output: a checksum of the products. */

int left[10000];
int right[10000];
int product[10000];

/* Prints a number in decimal digits. */
void print_unsigned(unsigned number) {
    if (number > 9) print_unsigned(number / 10);
    putchar('0' + number % 10);
}

int main(void) {
    int rounds = getchar(), width = getchar(), round, row, column, i, entry;
    unsigned sum = 0;
    for (i = 0; i < width * width; i++) {
        left[i] = i & 15;
        right[i] = i & 7;
    }
    for (round = 0; round < rounds; round++) {
        for (row = 0; row < width; row++) {
            for (column = 0; column < width; column++) {
                entry = round;
                for (i = 0; i < width; i++) entry += left[row * width + i] * right[i * width + column];
                product[row * width + column] = entry;
                sum = sum * 31 + entry;
            }
        }
    }
    print_unsigned(sum);
    putchar('\n');
    return 0;
}
