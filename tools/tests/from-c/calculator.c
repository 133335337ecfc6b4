/* A calculator for infix expressions, by recursive descent over a line. */
#include <stdio.h>

enum kind { NUMBER, PLUS = '+', MINUS = '-', TIMES = '*', OVER = '/', OPEN = '(', CLOSE = ')', END = -1 };

static int look, value, errors;
static enum kind token;

static int next_char(void)
{
    int c = look;
    look = getchar();
    return c;
}

static void advance(void)
{
    while (look == ' ' || look == '\t')
        next_char();
    if (look >= '0' && look <= '9') {
        value = 0;
        do
            value = value * 10 + next_char() - '0';
        while (look >= '0' && look <= '9');
        token = NUMBER;
        return;
    }
    switch (look) {
    case '+': case '-': case '*': case '/': case '(': case ')':
        token = next_char();
        break;
    case '\n':
    case EOF:
        token = END;
        break;
    default:
        errors++;
        next_char();
        advance();
    }
}

static int expression(void);

static int primary(void)
{
    int v;
    switch (token) {
    case NUMBER:
        v = value;
        advance();
        return v;
    case MINUS:
        advance();
        return -primary();
    case OPEN:
        advance();
        v = expression();
        if (token == CLOSE)
            advance();
        else
            errors++;
        return v;
    default:
        errors++;
        return 0;
    }
}

static int term(void)
{
    int v = primary();
    for (;;) {
        if (token == TIMES) {
            advance();
            v *= primary();
        } else if (token == OVER) {
            int d;
            advance();
            d = primary();
            v = d ? v / d : (errors++, 0);
        } else
            return v;
    }
}

static int expression(void)
{
    int v = term();
    while (token == PLUS || token == MINUS) {
        int sign = token == PLUS ? 1 : -1;
        advance();
        v += sign * term();
    }
    return v;
}

int main(void)
{
    look = getchar();
    while (look != EOF) {
        int v;
        errors = 0;
        advance();
        if (token == END) {
            next_char();
            continue;
        }
        v = expression();
        if (errors)
            printf("%d errors\n", errors);
        else
            printf("= %d\n", v);
        while (look != '\n' && look != EOF)
            next_char();
        next_char();
    }
    return 0;
}
