/* Takes comments out of C text: a machine of states. */
#include <stdio.h>

enum state { CODE, SLASH, LINE, BLOCK, STAR, QUOTE, ESCAPE };

int main(void)
{
    enum state s = CODE;
    int c, quote = 0, comments = 0;

    while ((c = getchar()) != EOF) {
        switch (s) {
        case CODE:
            if (c == '/') {
                s = SLASH;
                continue;
            }
            if (c == '"' || c == '\'') {
                quote = c;
                s = QUOTE;
            }
            break;
        case SLASH:
            if (c == '*') {
                s = BLOCK;
                comments++;
                continue;
            } else if (c == '/') {
                s = LINE;
                comments++;
                continue;
            }
            putchar('/');
            s = CODE;
            break;
        case LINE:
            if (c != '\n')
                continue;
            s = CODE;
            break;
        case BLOCK:
            if (c == '*')
                s = STAR;
            continue;
        case STAR:
            if (c == '/') {
                s = CODE;
                c = ' ';
                break;
            }
            if (c != '*')
                s = BLOCK;
            continue;
        case QUOTE:
            if (c == '\\')
                s = ESCAPE;
            else if (c == quote)
                s = CODE;
            break;
        case ESCAPE:
            s = QUOTE;
            break;
        }
        putchar(c);
    }
    return comments;
}
