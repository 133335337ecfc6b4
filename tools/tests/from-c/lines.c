/* from-c: --unsigned-char */
/* Reads lines with fgets, cuts them into words in place, and takes words as commands. */
#include <stdio.h>
#include <stdlib.h>
#include <string.h>
#include <ctype.h>

#define WORDS 6

struct command {
    const char *name;
    int arguments;
};

static const struct command commands[] = { { "add", 2 }, { "neg", 1 }, { "quit", 0 }, { NULL, 0 } };

static int cut(char *line, char **words)
{
    int n = 0;
    for (;;) {
        while (isblank(*line))
            *line++ = '\0';
        if (*line == '\0' || *line == '\n')
            break;
        if (n == WORDS)
            return -1;
        words[n++] = line;
        while (*line && !isspace(*line))
            line++;
    }
    *line = '\0';
    return n;
}

static int find(const char *name)
{
    int i = 0;
    for (const struct command *c = commands; c->name != NULL; c++, i++)
        if (!strcmp(c->name, name))
            return i;
    return -1;
}

int main(void)
{
    char line[24], *words[WORDS], first;
    int n, number = 0, which;

    while (fgets(line, sizeof line, stdin) != NULL) {
        number++;
        if ((n = cut(line, words)) <= 0) {
            if (n < 0)
                printf("%d: too many words\n", number);
            continue;
        }
        first = *words[0];
        if (!isalpha(first) || (which = find(words[0])) < 0) {
            printf("%d: %s isn't known\n", number, words[0]);
            continue;
        }
        if (commands[which].arguments != n - 1) {
            printf("%d: %s takes %d\n", number, words[0], commands[which].arguments);
            continue;
        }
        switch (which) {
        case 0:
            printf("%d\n", atoi(words[1]) + atoi(words[2]));
            break;
        case 1:
            printf("%d\n", -atoi(words[1]));
            break;
        default:
            puts("bye");
            exit(number);
        }
    }
    return 0;
}
