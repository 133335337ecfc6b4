/* from-c: --left-to-right */
/* A calculator in Polish notation, whose pops stand side by side in expressions: the order is said to be left to right. */
#include <stdio.h>
#include <stdlib.h>

#define DEPTH 20
enum { NUMBER = 256, NAME };

static int sp, value[DEPTH], variables[26], variable, number;

static void push(int v)
{
    if (sp == DEPTH) {
        printf("full\n");
        exit(2);
    }
    value[sp++] = v;
}

static int pop(void)
{
    if (sp > 0)
        return value[--sp];
    printf("empty\n");
    return 0;
}

static int getop(void)
{
    static int ahead = -2;
    int c = ahead == -2 ? getchar() : ahead;
    ahead = -2;
    while (c == ' ' || c == '\t')
        c = getchar();
    if (c >= 'a' && c <= 'z') {
        variable = c - 'a';
        return NAME;
    }
    if (c < '0' || c > '9')
        return c;
    number = 0;
    do
        number = 10 * number + (c - '0');
    while ((c = getchar()) >= '0' && c <= '9');
    ahead = c;
    return NUMBER;
}

int main(void)
{
    int type, op2;
    while ((type = getop()) != EOF) {
        switch (type) {
        case NUMBER:
            push(number);
            break;
        case NAME:
            push(variables[variable]);
            break;
        case '=':
            pop();
            variables[variable] = value[sp - 1];
            break;
        case '+':
            push(pop() + pop());
            break;
        case '*':
            push(pop() * pop());
            break;
        case '-':
            op2 = pop();
            push(pop() - op2);
            break;
        case '/':
            op2 = pop();
            if (op2 != 0)
                push(pop() / op2);
            else
                printf("zero divisor\n");
            break;
        case '~':
            push(-pop());
            break;
        case '\n':
            printf("\t%d\n", pop());
            break;
        case 'Q':
            exit(sp);
        default:
            printf("unknown %c\n", type);
            break;
        }
    }
    return 100;
}
