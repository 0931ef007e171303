/* Freed: the next one of a list is taken from a node that is freed. Right: before it is freed. */
#include "checks.h"

struct node {
    int values[4];
    struct node *volatile next;
};

int main(void)
{
    struct node *list = NULL;
    for (int i = 0; i < 3; i++) {
        struct node *node = malloc(sizeof *node);
        node->next = list;
        list = node;
    }
    while (list) {
        struct node *node = list;
        IF_RIGHT(list = node->next);
        free(node);
        IF_WRONG(list = node->next);
    }
}
