/* from-c: --unsigned-char */
/* Cuts a text into words by kinds; a struct that is returned by value. */
#include <stdio.h>
#include <ctype.h>
#include <string.h>

typedef enum { T_END, T_NAME, T_NUMBER, T_STRING, T_MARK } kind;

typedef struct {
    kind kind;
    char text[24];
    int line;
} token;

static const char *source =
    "while (x1 <= 0x1F) {\n"
    "    print(\"a b\", x1++); // rest\n"
    "    x1 = x1 * 10;\n"
    "}\n";
static const char *at;
static int line = 1;

static token next(void)
{
    token t;
    int n = 0;

    memset(&t, 0, sizeof t);
    for (;;) {
        while (isspace((unsigned char)*at))
            if (*at++ == '\n')
                line++;
        if (at[0] == '/' && at[1] == '/')
            while (*at && *at != '\n')
                at++;
        else
            break;
    }
    t.line = line;
    if (!*at) {
        t.kind = T_END;
    } else if (isalpha(*at) || *at == '_') {
        t.kind = T_NAME;
        do
            t.text[n++] = *at++;
        while (isalnum(*at) || *at == '_');
    } else if (isdigit(*at)) {
        t.kind = T_NUMBER;
        while (isxdigit(*at) || *at == 'x')
            t.text[n++] = *at++;
    } else if (*at == '"') {
        t.kind = T_STRING;
        while (*++at != '"')
            t.text[n++] = *at;
        at++;
    } else {
        t.kind = T_MARK;
        t.text[n++] = *at++;
        if ((t.text[0] == '<' || t.text[0] == '=') && *at == '=')
            t.text[n++] = *at++;
        else if (t.text[0] == '+' && *at == '+')
            t.text[n++] = *at++;
    }
    t.text[n] = '\0';
    return t;
}

int main(void)
{
    int counts[5] = { 0 };
    token t;
    at = source;
    while ((t = next()).kind != T_END) {
        counts[t.kind]++;
        printf("%d:%d:%s ", t.line, t.kind, t.text);
    }
    printf("\n");
    for (kind k = T_END; k <= T_MARK; k++)
        printf("%d ", counts[k]);
    printf("%d\n", line);
    return counts[T_NAME];
}
