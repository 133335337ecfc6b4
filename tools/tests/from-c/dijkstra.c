/* Shortest ways in a graph of lists, with a heap; INFINITY as an int. */
#include <stdio.h>
#include <stdlib.h>
#include <limits.h>

#define NODES 9
#define FAR INT_MAX

struct edge { int to, weight; struct edge *next; };
struct graph { struct edge *edges[NODES]; int count; };
struct heap { int node[NODES * NODES]; int key[NODES * NODES]; int size; };

static void connect(struct graph *g, int a, int b, int w)
{
    int twice = 2;
    while (twice--) {
        struct edge *e = malloc(sizeof(*e));
        e->to = b;
        e->weight = w;
        e->next = g->edges[a];
        g->edges[a] = e;
        g->count++;
        int t = a; a = b; b = t;
    }
}

static void heap_put(struct heap *h, int key, int node)
{
    int i = h->size++;
    while (i > 0 && h->key[(i - 1) / 2] > key) {
        h->key[i] = h->key[(i - 1) / 2];
        h->node[i] = h->node[(i - 1) / 2];
        i = (i - 1) / 2;
    }
    h->key[i] = key;
    h->node[i] = node;
}

static int heap_take(struct heap *h, int *key)
{
    int result = h->node[0], i = 0, c, last = --h->size;
    *key = h->key[0];
    while ((c = 2 * i + 1) < last) {
        if (c + 1 < last && h->key[c + 1] < h->key[c])
            c++;
        if (h->key[last] <= h->key[c])
            break;
        h->key[i] = h->key[c];
        h->node[i] = h->node[c];
        i = c;
    }
    h->key[i] = h->key[last];
    h->node[i] = h->node[last];
    return result;
}

static void search(const struct graph *g, int from, int *distance, int *before)
{
    static struct heap h;
    int i, key;
    for (i = 0; i < NODES; i++)
        distance[i] = FAR, before[i] = -1;
    distance[from] = 0;
    h.size = 0;
    heap_put(&h, 0, from);
    while (h.size) {
        int at = heap_take(&h, &key);
        if (key > distance[at])
            continue;
        for (const struct edge *e = g->edges[at]; e; e = e->next) {
            int d = key + e->weight;
            if (d < distance[e->to]) {
                distance[e->to] = d;
                before[e->to] = at;
                heap_put(&h, d, e->to);
            }
        }
    }
}

static void way(const int *before, int to)
{
    if (before[to] >= 0) {
        way(before, before[to]);
        printf("-");
    }
    printf("%d", to);
}

int main(void)
{
    struct graph g = { { NULL }, 0 };
    int distance[NODES], before[NODES], i;
    static const int list[][3] = { { 0, 1, 4 }, { 0, 7, 8 }, { 1, 2, 8 }, { 1, 7, 11 }, { 2, 3, 7 }, { 2, 5, 4 },
                                   { 3, 4, 9 }, { 3, 5, 14 }, { 5, 6, 2 }, { 6, 7, 1 } };
    for (i = 0; i < (int)(sizeof list / sizeof list[0]); i++)
        connect(&g, list[i][0], list[i][1], list[i][2]);
    search(&g, 0, distance, before);
    for (i = 0; i < NODES; i++)
        if (distance[i] == FAR)
            printf("%d: no way\n", i);
        else {
            printf("%d: %2d ", i, distance[i]);
            way(before, i);
            printf("\n");
        }
    return g.count;
}
