#include "../regions.h" /* In C: gcc -std=gnu11 -funsigned-char -fwrapv -fno-builtin -ftrivial-auto-var-init=zero -o calculator main.c stack.c numbers.c */

/* Reckons with numbers that stand before their operators: of `3 4 + 5 *` it writes 35 when the line ends. */

/* As in stack.c. */
struct cell {
    int value;
    struct cell *sameregion below;
};

struct stack {
    struct cell *sameregion top;
    int depth;
};

struct stack *new_stack(void);
void push(struct stack *s, int value);
int pop(struct stack *s);
void free_stack(struct stack *s) deletes;

/* As in numbers.c. */
int is_digit(int c);
int digits(int first);
int behind(void);
void print(int number);

/* Puts what an operator makes of the two numbers on top in their place. */
void apply(struct stack *s, int operator) {
    int right = pop(s), left = pop(s);
    if (operator == '+') push(s, left + right);
    if (operator == '-') push(s, left - right);
    if (operator == '*') push(s, left * right);
}

int main(void) deletes {
    struct stack *s = new_stack();
    int c = getchar();
    while (c != EOF) {
        if (is_digit(c)) {
            push(s, digits(c));
            c = behind();
        } else {
            if (c == '+' || c == '-' || c == '*') apply(s, c);
            if (c == '\n' && s->depth > 0) print(pop(s));
            c = getchar();
        }
    }
    free_stack(s);
    return 0;
}
