/* A program that ends by exit deep inside of calls. */
#include <stdio.h>
#include <stdlib.h>
#include <string.h>

static int depth;

static void die(const char *message, int status)
{
    printf("stopped: %s at %d\n", message, depth);
    exit(status);
}

static int check(int n, int *log)
{
    depth++;
    if (n == 4)
        die("four", 40 + n);
    log[n] = depth;
    return n % 2;
}

static char *copy(const char *s)
{
    char *t = malloc(strlen(s) + 1);
    if (!t)
        die("memory", 9);
    return strcpy(t, s);
}

int main(void)
{
    int log[10] = { 0 }, i, n = 0;
    char *s = copy("abc"), *t = strcmp(s, "abc") ? copy("x") : copy("yz");
    printf("%s%s\n", s, t);
    for (i = 0; i < 10; i++) {
        if (check(i, log) || check(i + 1, log))
            n += log[i];
        printf("%d %d\n", i, n);
    }
    return 0;
}
