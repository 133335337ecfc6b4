/* Growing arrays by allocating anew, rows of a triangle, and a pool with a list of free cells. */
#include <stdio.h>
#include <stdlib.h>
#include <string.h>

typedef struct vector {
    int *data;
    unsigned int size, room;
} vector;

static void vector_init(vector *v)
{
    v->size = 0;
    v->room = 2;
    v->data = (int *)malloc(v->room * sizeof(int));
}

static void vector_push(vector *v, int x)
{
    if (v->size == v->room) {
        int *bigger = calloc(v->room * 2, sizeof *bigger);
        memcpy(bigger, v->data, v->size * sizeof(int));
        free(v->data);
        v->data = bigger;
        v->room *= 2;
    }
    v->data[v->size++] = x;
}

typedef struct slot {
    int value;
    struct slot *free;
} slot;

static slot pool[4], *free_list;

static void pool_init(void)
{
    int i;
    free_list = NULL;
    for (i = sizeof(pool) / sizeof(pool[0]); i-- > 0; ) {
        pool[i].free = free_list;
        free_list = &pool[i];
    }
}

static slot *pool_take(int value)
{
    slot *s = free_list;
    if (s == NULL)
        return NULL;
    free_list = s->free;
    s->value = value;
    return s;
}

static void pool_give(slot *s)
{
    s->free = free_list;
    free_list = s;
}

int main(void)
{
    vector v;
    int **rows, i, j, sum = 0;
    slot *a, *b, *c;

    vector_init(&v);
    for (i = 0; i < 20; i++)
        vector_push(&v, i * i);
    for (i = 0; i < (int)v.size; i++)
        sum += v.data[i];
    printf("%d %u %u\n", sum, v.size, v.room);

    rows = malloc(8 * sizeof(int *));
    for (i = 0; i < 8; i++) {
        rows[i] = malloc((i + 1) * sizeof **rows);
        rows[i][0] = rows[i][i] = 1;
        for (j = 1; j < i; j++)
            rows[i][j] = rows[i - 1][j - 1] + rows[i - 1][j];
    }
    for (j = 0; j < 8; j++)
        printf("%d ", rows[7][j]);
    printf("\n");
    for (i = 0; i < 8; i++)
        free(rows[i]);
    free(rows);

    pool_init();
    a = pool_take(1), b = pool_take(2), c = pool_take(3);
    pool_give(b);
    b = pool_take(4);
    pool_take(5);
    printf("%d %d %d %d ", a->value, b->value, c->value, b == &pool[1]);
    puts(pool_take(6) ? "more" : "none");
    return sum % 100;
}
