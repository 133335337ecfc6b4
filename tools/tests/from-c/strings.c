/* from-c: --unsigned-char */
/* Strings as people handle them, with functions of their own and with those of string.h. */
#include <stdio.h>
#include <string.h>
#include <ctype.h>

#define SIZE 64

static int my_strlen(const char *s)
{
    const char *p = s;
    int n = 0;
    while (*p++)
        n++;
    return n;
}

static char *my_strcpy(char *to, const char *from)
{
    char *start = to;
    while ((*to++ = *from++) != '\0')
        ;
    return start;
}

static void reverse(char *s)
{
    int i, j, c;
    for (i = 0, j = (int)strlen(s) - 1; i < j; i++, j--) {
        c = s[i];
        s[i] = s[j];
        s[j] = c;
    }
}

static int is_palindrome(const char *s)
{
    int i = 0, j = my_strlen(s) - 1;
    while (i < j)
        if (s[i++] != s[j--])
            return 0;
    return 1;
}

static void upper(char *s)
{
    for (; *s; s++)
        if (islower(*s))
            *s = toupper(*s);
}

static int count(const char *text, const char *word)
{
    int n = 0;
    const char *at = text;
    while ((at = strstr(at, word)) != NULL) {
        n++;
        at += strlen(word);
    }
    return n;
}

int main(void)
{
    char a[SIZE], b[SIZE] = "tail", *found;
    static const char *const words[] = { "level", "region", "noon", "", "ab" };
    unsigned i;

    my_strcpy(a, "Hello, " "world");
    printf("%s %d\n", a, my_strlen(a));
    reverse(a);
    puts(a);
    strcat(b, "-end");
    printf("[%s] [%10s] [%-10s] [%.3s]\n", b, b, b, b);
    for (i = 0; i < sizeof words / sizeof words[0]; i++)
        printf("%s: %s\n", words[i], is_palindrome(words[i]) ? "yes" : "no");
    strncpy(a, "abcabcab", SIZE);
    upper(a);
    found = strchr(a, 'C');
    if (found != NULL)
        *found = 'x';
    printf("%s %d %d\n", a, strcmp("abc", "abd") < 0, strncmp("abc", "abd", 2));
    found = strrchr(a, 'B');
    puts(found ? found : "none");
    printf("%d\n", count("the cat and the hat and the bat", "the"));
    memset(b, '*', 5);
    b[5] = 0;
    fputs(b, stdout);
    putchar('\n');
    return (int)strlen(b);
}
