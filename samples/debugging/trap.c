/* A trap: a thread prints a name that another thread has set to NULL. */
#include <pthread.h>
#include <stdio.h>

static const char *name = "dthreads";

static void *forget(void *argument)
{
    name = NULL;
    return argument;
}

static int length(const char *text)
{
    int count = 0;
    while (text[count])
        count++;
    return count;
}

int main(void)
{
    pthread_t thread;
    printf("%d letters\n", length(name));
    pthread_create(&thread, NULL, forget, NULL);
    pthread_join(thread, NULL);
    printf("%d letters\n", length(name));
    return 0;
}
