/* Merge sort of a linked list of numbers that are read. */
#include <stdio.h>
#include <stdlib.h>

typedef struct node {
    int value;
    struct node *next;
} Node;

static Node *cons(int value, Node *next)
{
    Node *n = (Node *)malloc(sizeof(Node));
    if (n == NULL) {
        printf("out of memory\n");
        exit(1);
    }
    n->value = value;
    n->next = next;
    return n;
}

static void split(Node *list, Node **front, Node **back)
{
    Node *slow = list, *fast = list->next;
    while (fast != NULL) {
        fast = fast->next;
        if (fast != NULL) {
            slow = slow->next;
            fast = fast->next;
        }
    }
    *front = list;
    *back = slow->next;
    slow->next = NULL;
}

static Node *merge(Node *a, Node *b)
{
    Node head, *tail = &head;
    head.next = NULL;
    while (a && b) {
        if (a->value <= b->value) {
            tail->next = a;
            a = a->next;
        } else {
            tail->next = b;
            b = b->next;
        }
        tail = tail->next;
    }
    tail->next = a ? a : b;
    return head.next;
}

static Node *sort(Node *list)
{
    Node *front, *back;
    if (list == NULL || list->next == NULL)
        return list;
    split(list, &front, &back);
    front = sort(front);
    back = sort(back);
    return merge(front, back);
}

int main(void)
{
    Node *list = NULL, *p;
    int c, number = 0, inside = 0, sum = 0;

    while ((c = getchar()) != EOF) {
        if (c >= '0' && c <= '9') {
            number = number * 10 + (c - '0');
            inside = 1;
        } else if (inside) {
            list = cons(number, list);
            number = inside = 0;
        }
    }
    list = sort(list);
    for (p = list; p; p = p->next) {
        printf("%d%s", p->value, p->next ? " " : "\n");
        sum += p->value;
    }
    while (list) {
        p = list->next;
        free(list);
        list = p;
    }
    return sum % 256;
}
