/* A hash table with chains: counts words. */
#include <stdio.h>
#include <stdlib.h>
#include <string.h>

#define BUCKETS 31
#define MAX_WORD 32

struct entry {
    char *word;
    int count;
    struct entry *next;
};

static struct entry *table[BUCKETS];
static int entries = 0;

static unsigned hash(const unsigned char *s)
{
    unsigned h = 5381;
    for (; *s != 0; s++)
        h = (h << 5) + h + *s;
    return h % BUCKETS;
}

static struct entry *lookup(char *word, int create)
{
    unsigned h = hash((unsigned char *)word);
    struct entry *e;
    for (e = table[h]; e != 0; e = e->next)
        if (strcmp(e->word, word) == 0)
            return e;
    if (!create)
        return 0;
    e = malloc(sizeof *e);
    e->word = malloc(strlen(word) + 1);
    strcpy(e->word, word);
    e->count = 0;
    e->next = table[h];
    table[h] = e;
    entries++;
    return e;
}

static int read_word(char *word, int limit)
{
    int c, n = 0;
    while ((c = getchar()) != EOF && !(c >= 'a' && c <= 'z'))
        ;
    if (c == EOF)
        return 0;
    do {
        if (n < limit - 1)
            word[n++] = c;
    } while ((c = getchar()) >= 'a' && c <= 'z');
    word[n] = '\0';
    return n;
}

int main(void)
{
    char word[MAX_WORD];
    int i, total = 0;
    struct entry *e;

    while (read_word(word, MAX_WORD) > 0) {
        lookup(word, 1)->count++;
        ++total;
    }
    for (i = 0; i < BUCKETS; i++) {
        if (!table[i])
            continue;
        printf("%2d:", i);
        for (e = table[i]; e; e = e->next)
            printf(" %s=%d", e->word, e->count);
        printf("\n");
    }
    e = lookup("nosuchword", 0);
    printf("%d words, %d different, %s\n", total, entries, e == NULL ? "absent" : "present");
    return 0;
}
