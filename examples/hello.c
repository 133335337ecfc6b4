int main(void) { /* In C: gcc -std=gnu11 -fwrapv -include stdio.h -o hello hello.c */
    putchar(72);
    return 0;
}
