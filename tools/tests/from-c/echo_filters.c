/* Filters over standard input: numbers of lines, words and bytes, letters counted, rot13, a table of bytes. */
#include <stdio.h>

#define isupper(c) ((c) >= 'A' && (c) <= 'Z')
#define islower(c) ((c) >= 'a' && (c) <= 'z')
#define LINE 20

static int rot13(int c)
{
    if (islower(c))
        return (c - 'a' + 13) % 26 + 'a';
    return isupper(c) ? (c - 'A' + 13) % 26 + 'A' : c;
}

static int get_line(char *s, int limit)
{
    int c, i;
    for (i = 0; i < limit - 1 && (c = getchar()) != EOF && c != '\n'; ++i)
        s[i] = c;
    if (c == '\n')
        s[i++] = c;
    s[i] = '\0';
    return i;
}

int main(void)
{
    char line[LINE];
    int lines = 0, words = 0, bytes = 0, n, i, inside = 0, longest = 0;
    int letters[26] = { 0 };

    while ((n = get_line(line, LINE)) > 0) {
        bytes += n;
        if (n > longest)
            longest = n;
        for (i = 0; i < n; i++) {
            int c = (unsigned char)line[i];
            if (c == '\n')
                lines++;
            if (c == ' ' || c == '\n' || c == '\t')
                inside = 0;
            else if (!inside) {
                inside = 1;
                words++;
            }
            if (islower(c) || isupper(c))
                ++letters[(c | 32) - 'a'];
            putchar(rot13(c));
        }
    }
    printf("%d %d %d %d\n", lines, words, bytes, longest);
    for (i = 0; i < 26; i++)
        if (letters[i])
            printf("%c%d ", 'a' + i, letters[i]);
    printf("\n");
    for (i = 0; i < 3; i++)
        printf("%3d 0x%02x %03o%c", i * 77, i * 77, i * 77, i < 2 ? ';' : '\n');
    return words;
}
