/* A node of malloc is linked without its end being set. */
#include "explore.h"

struct node {
    int value;
    struct node *next;
};

static pthread_mutex_t mutex = PTHREAD_MUTEX_INITIALIZER;
static struct node *first;

static void *add(void *value)
{
    struct node *node = malloc(sizeof *node);
    node->value = (int)(long)value;
#ifdef RIGHT
    node->next = NULL;
#endif
    lock(&mutex);
    if (first)
        node->next = first;
    first = node;
    unlock(&mutex);
    return NULL;
}

int main(void)
{
    int sum = 0;
    begin(add, 1);
    begin(add, 2);
    join();
    for (struct node *node = first; node; node = node->next)
        sum += node->value;
    must(sum == 3, "another sum");
}
