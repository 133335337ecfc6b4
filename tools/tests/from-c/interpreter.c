/* from-c: --unsigned-char */
/* An interpreter of a language of eight letters, with a table of jumps. */
#include <stdio.h>
#include <string.h>

#define TAPE 64
#define PROGRAM 256

static unsigned char tape[TAPE];
static int jumps[PROGRAM];

static int link_loops(const char *code)
{
    int stack[PROGRAM], depth = 0, i;
    for (i = 0; code[i]; i++)
        if (code[i] == '[')
            stack[depth++] = i;
        else if (code[i] == ']') {
            if (!depth)
                return -1;
            jumps[i] = stack[--depth];
            jumps[jumps[i]] = i;
        }
    return depth ? -1 : i;
}

static int execute(const char *code, int most)
{
    unsigned char *p = tape;
    int at = 0, steps = 0, c;
    memset(tape, 0, sizeof tape);
    for (; code[at] && steps < most; at++, steps++)
        switch (code[at]) {
        case '>': ++p; break;
        case '<': --p; break;
        case '+': ++*p; break;
        case '-': --*p; break;
        case '.': putchar(*p); break;
        case ',': *p = (c = getchar()) == EOF ? 0 : c; break;
        case '[':
            if (!*p)
                at = jumps[at];
            break;
        case ']':
            if (*p)
                at = jumps[at];
        }
    return steps;
}

int main(void)
{
    static const char *const programs[] = {
        "++++++++[>++++[>++>+++>+++>+<<<<-]>+>+>->>+[<]<-]>>.>---.+++++++..+++.>>.<-.<.+++.------.--------.>>+.>++.",
        ",[.,]",
        "[[]",
        "+[]",
    };
    int i, total = 0;
    for (i = 0; i < 4; i++) {
        int n = link_loops(programs[i]);
        if (n < 0) {
            printf("program %d is no program\n", i);
            continue;
        }
        total += n = execute(programs[i], 5000);
        printf("\n%d steps\n", n);
    }
    return total % 200;
}
