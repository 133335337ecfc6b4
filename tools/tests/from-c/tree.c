/* A binary search tree with insertion, removal, depth and a walk. */
#include <stdio.h>
#include <stdlib.h>

struct tree {
    int key;
    struct tree *left, *right;
};

static struct tree *insert(struct tree *t, int key)
{
    if (!t) {
        t = calloc(1, sizeof(struct tree));
        t->key = key;
    } else if (key < t->key)
        t->left = insert(t->left, key);
    else if (key > t->key)
        t->right = insert(t->right, key);
    return t;
}

static void delete(struct tree **at, int key)
{
    struct tree *t;
    while ((t = *at) != NULL && t->key != key)
        at = key < t->key ? &t->left : &t->right;
    if (t == NULL)
        return;
    if (!t->left)
        *at = t->right;
    else if (!t->right)
        *at = t->left;
    else {
        struct tree **next = &t->right;
        while ((*next)->left)
            next = &(*next)->left;
        t->key = (*next)->key;
        *next = (*next)->right;
    }
}

static int depth(const struct tree *t)
{
    int l, r;
    if (t == NULL)
        return 0;
    l = depth(t->left);
    r = depth(t->right);
    return 1 + (l > r ? l : r);
}

static int size(const struct tree *t)
{
    return t ? size(t->left) + 1 + size(t->right) : 0;
}

static void walk(const struct tree *t)
{
    if (t) {
        walk(t->left);
        printf("%d ", t->key);
        walk(t->right);
    }
}

int main(void)
{
    struct tree *root = NULL;
    unsigned seed = 12345;
    int i;

    for (i = 0; i < 30; i++) {
        seed = seed * 1103515245u + 12345u;
        root = insert(root, (int)(seed >> 16) % 100);
    }
    walk(root);
    printf("\n%d nodes, depth %d\n", size(root), depth(root));
    for (i = 0; i < 100; i += 3)
        delete(&root, i);
    walk(root);
    printf("\n%d nodes\n", size(root));
    return depth(root);
}
