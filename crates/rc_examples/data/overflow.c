int main(void) { /* In C: gcc -std=gnu11 -fwrapv -include stdio.h -o overflow overflow.c */
    putchar(79);
    putchar(75);
    return 65536 * 32767 +
        65536;
}
