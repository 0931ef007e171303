/* Threads with names and variables of their own. */
#include <errno.h>
#include <pthread.h>

static _Thread_local int mine = 5;
static _Thread_local struct {
    int first, others[3];
} box;

static void *work(void *argument)
{
    mine += *(int *)argument;
    box.others[1] = mine;
    errno = ERANGE;
    pthread_setname_np(pthread_self(), "worker");
    return NULL;
}

int main(void)
{
    static int numbers[] = {1, 2, 3};
    pthread_t threads[2], last;
    for (int i = 0; i < 2; i++)
        pthread_create(&threads[i], NULL, work, &numbers[i]);
    for (int i = 0; i < 2; i++)
        pthread_join(threads[i], NULL);
    pthread_create(&last, NULL, work, &numbers[2]);
    pthread_join(last, NULL);
    return mine;
}
