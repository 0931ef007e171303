/* The heap between threads. */
#include <errno.h>
#include <pthread.h>
#include <stdint.h>
#include <stdio.h>
#include <stdlib.h>
#include <string.h>

enum { BLOCKS = 200 };

struct node {
    struct node *next;
    unsigned size;
    unsigned char bytes[];
};

static struct node *shared;
static pthread_mutex_t mutex = PTHREAD_MUTEX_INITIALIZER;
static int wrong;

static void *makes(void *argument)
{
    unsigned state = (unsigned)(long)argument;
    for (int i = 0; i < BLOCKS; i++) {
        state = state * 1103515245u + 12345u;
        unsigned size = state >> 16 & (i % 20 == 0 ? 0xffff : 0x3ff);
        struct node *node = malloc(sizeof *node + size);
        node->size = size;
        memset(node->bytes, (int)(size & 0xff), size);
        pthread_mutex_lock(&mutex);
        node->next = shared;
        shared = node;
        pthread_mutex_unlock(&mutex);
    }
    return NULL;
}

static struct node *take(void)
{
    pthread_mutex_lock(&mutex);
    struct node *node = shared;
    if (node)
        shared = node->next;
    pthread_mutex_unlock(&mutex);
    return node;
}

static int is_wrong(const struct node *node)
{
    for (unsigned i = 0; i < node->size; i++)
        if (node->bytes[i] != (node->size & 0xff))
            return 1;
    return 0;
}

static void *frees(void *argument)
{
    for (struct node *node = take(); node; node = take()) {
        int bad = is_wrong(node);
        free(node);
        if (bad) {
            pthread_mutex_lock(&mutex);
            wrong++;
            pthread_mutex_unlock(&mutex);
        }
    }
    return argument;
}

int main(void)
{
    pthread_t threads[8];
    for (int round = 0; round < 5; round++) {
        for (long i = 0; i < 4; i++)
            pthread_create(&threads[i], NULL, makes, (void *)(i + 10 * round));
        for (int i = 0; i < 4; i++)
            pthread_join(threads[i], NULL);
        for (long i = 0; i < 4; i++)
            pthread_create(&threads[i], NULL, frees, NULL);
        for (int i = 0; i < 4; i++)
            pthread_join(threads[i], NULL);
    }
    printf("wrong %d\n", wrong);

    /* More in all than the heap has, one after the other. */
    for (int i = 0; i < 300; i++) {
        char *block = malloc(1 << 20);
        if (!block)
            printf("no block %d\n", i);
        block[i] = 1;
        free(block);
    }
    char *text = malloc(5);
    strcpy(text, "four");
    for (int i = 10; i < 100000; i *= 3) {
        text = realloc(text, (size_t)i);
        text[i - 1] = 'x';
    }
    printf("text %s\n", text);
    text = realloc(text, 5);
    printf("text %s\n", text);
    free(text);
    int *zeros = calloc(1000, sizeof *zeros), sum = 0;
    for (int i = 0; i < 1000; i++)
        sum += zeros[i];
    printf("sum %d\n", sum);
    void *aligned;
    printf("aligned %d", posix_memalign(&aligned, 256, 1000));
    printf(" %d", (int)((uintptr_t)aligned % 256));
    printf(" %d\n", (int)((uintptr_t)aligned_alloc(64, 128) % 64));
    errno = 0;
    volatile size_t huge = 1u << 31;
    void *none = malloc(huge);
    printf("huge %s %s\n", none ? "?" : "NULL", errno == ENOMEM ? "ENOMEM" : "?");
    printf("overflow %s\n", calloc(huge, 4) ? "?" : "NULL");
    free(NULL);
    return 0;
}
