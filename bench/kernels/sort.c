#include "regions.h"

/* Sorting in an array: a thousand numbers are made, counted by their last six bits, and sorted by
   insertion, in each round anew.
   Input: one byte, the number of rounds. Output: a checksum of the sorted numbers and the counts. */

int numbers[1000];
int counts[64];

/* Prints a number in decimal digits. */
void print_unsigned(unsigned number) {
    if (number > 9) print_unsigned(number / 10);
    putchar('0' + number % 10);
}

int main(void) {
    int rounds = getchar(), round, i, place, number;
    unsigned random = 1, sum = 0;
    for (round = 0; round < rounds; round++) {
        for (i = 0; i < 64; i++) counts[i] = 0;
        for (i = 0; i < 1000; i++) {
            random = random * 1103515245 + 12345;
            numbers[i] = (int)(random >> 16) & 1023;
            counts[numbers[i] & 63]++;
        }
        for (i = 1; i < 1000; i++) {
            number = numbers[i];
            place = i;
            while (place > 0 && numbers[place - 1] > number) {
                numbers[place] = numbers[place - 1];
                place--;
            }
            numbers[place] = number;
        }
        for (i = 0; i < 1000; i++) sum = sum * 31 + numbers[i];
        for (i = 0; i < 64; i++) sum = sum * 31 + counts[i];
    }
    print_unsigned(sum);
    putchar('\n');
    return 0;
}
