/* A stack machine in a struct: structs with arrays in them, an enum, and returns of errors. */
#include <stdio.h>

#define DEPTH 8

typedef enum { OK, OVERFLOW, UNDERFLOW, BAD } status;
typedef struct {
    int cells[DEPTH];
    int top;
    status last;
} Stack;

static status push(Stack *s, int v)
{
    if (s->top >= DEPTH)
        return s->last = OVERFLOW;
    s->cells[s->top++] = v;
    return s->last = OK;
}

static int pop(Stack *s)
{
    if (s->top == 0) {
        s->last = UNDERFLOW;
        return 0;
    }
    s->last = OK;
    return s->cells[--s->top];
}

static const char *message(status s)
{
    static const char *const texts[] = { "ok", "overflow", "underflow", "bad" };
    return texts[s];
}

static status run(Stack *s, const char *program)
{
    int a, b;
    for (; *program != '\0'; program++) {
        switch (*program) {
        case ' ':
            break;
        case '+':
            b = pop(s), a = pop(s);
            push(s, a + b);
            break;
        case '-':
            b = pop(s);
            a = pop(s);
            push(s, a - b);
            break;
        case '*':
            b = pop(s);
            push(s, pop(s) * b);
            break;
        case 'd':
            a = pop(s);
            push(s, a);
            push(s, a);
            break;
        case '0': case '1': case '2': case '3': case '4':
        case '5': case '6': case '7': case '8': case '9':
            push(s, (unsigned char)*program - '0');
            break;
        default:
            return BAD;
        }
        if (s->last != OK)
            return s->last;
    }
    return OK;
}

int main(void)
{
    static const char *const programs[] = { "34+2*", "9d*8d*-", "1+", "123456789", "5 x", "" };
    unsigned i;
    int sum = 0;
    for (i = 0; i < sizeof programs / sizeof programs[0]; i++) {
        Stack s = { { 0 }, 0, OK };
        status r = run(&s, programs[i]);
        printf("%s: %s", programs[i], message(r));
        if (r == OK && s.top > 0)
            printf(" %d", s.cells[s.top - 1]);
        printf("\n");
        sum += r;
    }
    return sum;
}
