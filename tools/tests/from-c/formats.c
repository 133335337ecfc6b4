/* Everything that printf takes: signs, widths, zeros, stars, precision. */
#include <stdio.h>

static int steps;

static int next(void) { return ++steps; }

static int noisy(int n)
{
    printf("<%d>", n);
    return n;
}

int main(void)
{
    static const int values[] = { 0, 7, -7, 12345, -2147483647 - 1, 2147483647 };
    int i, width = 8;
    const char *s = "text";

    for (i = 0; i < 6; i++) {
        printf("[%d] [%5d] [%-7d] [%07d] [%+d] [% d] [%.3d]\n", values[i], values[i], values[i], values[i], values[i],
               values[i], values[i]);
        printf("[%u] [%x] [%X] [%o] [%12u] [%-12x] [%012o] [%8.4x]\n", values[i], values[i], values[i], values[i],
               values[i], values[i], values[i], values[i]);
    }
    printf("[%*d] [%-*d] [%*s] [%.*s]\n", width, 42, width, 42, width, s, 2, s);
    printf("[%5c] [%-5c] [%c%c] %% [%s] [%10.2s] [%i]\n", 'a', 'b', 'c', 100, "", s, -1);
    printf("%d %d\n", noisy(3), 4);
    printf("before %d\n", noisy(next()));
    printf("%s%s%s\n", s, s + 2, &s[3]);
    printf("%d%%, tab\tand \"quotes\" and a slash \\ and \101\x42\n", 50);
    fprintf(stdout, "%05d|%5.1d|%x\n", -42, 3, 3000000000u);
    printf("no arguments\n");
    printf("");
    puts("");
    fputs("end", stdout);
    putc('!', stdout);
    fputc('\n', stdout);
    fflush(stdout);
    return putchar('x') + steps;
}
