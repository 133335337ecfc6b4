#include "regions.h"

/* A tree: 8,000 keys are put into a search tree that nothing balances, and the tree's region is deleted,
   in each round anew.
   Input: one byte, the number of rounds. Output: a checksum of the depths at which the keys come to lie. */

struct node {
    int key;
    struct node *sameregion left;
    struct node *sameregion right;
};

/* Prints a number in decimal digits. */
void print_unsigned(unsigned number) {
    if (number > 9) print_unsigned(number / 10);
    putchar('0' + number % 10);
}

int main(void) deletes {
    int rounds = getchar(), round, i, depth;
    unsigned random = 1, sum = 0;
    region r;
    struct node *root, *place, *added;
    for (round = 0; round < rounds; round++) {
        r = newregion();
        root = ralloc(r, struct node);
        root->key = 16384;
        for (i = 0; i < 8000; i++) {
            random = random * 1103515245 + 12345;
            added = ralloc(r, struct node);
            added->key = (int)(random >> 16) & 32767;
            place = root;
            depth = 0;
            while (place != added) {
                depth++;
                if (added->key < place->key) {
                    if (!place->left) place->left = added;
                    place = place->left;
                } else {
                    if (!place->right) place->right = added;
                    place = place->right;
                }
            }
            sum = sum * 31 + depth;
        }
        deleteregion(r);
    }
    print_unsigned(sum);
    putchar('\n');
    return 0;
}
