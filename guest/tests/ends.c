/* The end of a run: the first thread has left, and another one ends it after the functions of atexit. */
#include <pthread.h>
#include <stdio.h>
#include <stdlib.h>
#include <unistd.h>

static void one(void)
{
    printf("one\n");
}

static void two(void)
{
    printf("two\n");
}

__attribute__((constructor)) static void before(void)
{
    printf("before\n");
}

__attribute__((destructor)) static void after(void)
{
    printf("after\n");
}

static void *run(void *argument)
{
    pthread_join(*(pthread_t *)argument, NULL);
    printf("last\n");
    exit(9);
}

static pthread_t first;

int main(void)
{
    pthread_t thread;
    atexit(one);
    atexit(two);
    first = pthread_self();
    pthread_create(&thread, NULL, run, &first);
    pthread_exit(NULL);
}
