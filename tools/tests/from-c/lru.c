/* A doubly linked ring with a head, and a cache that throws out what wasn't used for longest. */
#include <stdio.h>
#include <stdlib.h>

struct link { struct link *before, *after; int key, value; };

static struct link ring;
static int length, capacity = 3, hits, misses;

static void cut(struct link *l)
{
    l->before->after = l->after;
    l->after->before = l->before;
    l->before = l->after = NULL;
    length--;
}

static void put_first(struct link *l)
{
    l->after = ring.after;
    l->before = &ring;
    ring.after->before = l;
    ring.after = l;
    length++;
}

static struct link *find(int key)
{
    struct link *l;
    for (l = ring.after; l != &ring && l->key != key; l = l->after)
        continue;
    return l == &ring ? NULL : l;
}

static int get(int key)
{
    struct link *l = find(key);
    if (l) {
        hits++;
    } else {
        misses++;
        if (length == capacity) {
            struct link *last = ring.before;
            cut(last);
            free(last);
        }
        l = malloc(sizeof *l);
        l->key = key;
        l->value = key * key;
        l->before = l->after = l;
        put_first(l);
    }
    cut(l);
    put_first(l);
    return l->value;
}

int main(void)
{
    static const int keys[] = { 1, 2, 3, 1, 4, 2, 5, 1, 1, 3 };
    unsigned i;
    ring.before = ring.after = &ring;
    for (i = 0; i < sizeof(keys) / sizeof(int); i++) {
        struct link *l;
        printf("%d=%d:", keys[i], get(keys[i]));
        for (l = ring.after; l != &ring; l = l->after)
            printf(" %d", l->key);
        printf("\n");
    }
    printf("%d hits, %d misses\n", hits, misses);
    return hits * 10 + misses;
}
