#include "../regions.h"

/* Numbers in decimal digits. */
int last;

int is_digit(int c) {
    return c >= '0' && c <= '9';
}

/* The number that begins with this digit, and goes on in the input. */
int digits(int first) {
    int number = 0;
    last = first;
    while (is_digit(last)) {
        number = number * 10 + (last - '0');
        last = getchar();
    }
    return number;
}

/* The byte behind it. */
int behind(void) {
    return last;
}

void print_digits(unsigned number) {
    if (number > 9) print_digits(number / 10);
    putchar('0' + number % 10);
}

void print(int number) {
    unsigned size = number;
    if (number < 0) {
        putchar('-');
        size = -size;
    }
    print_digits(size);
    putchar('\n');
}
