/* Between reading the others' values and writing one's next one a barrier is missing. */
#include "explore.h"

enum { THREADS = 3, ROUNDS = 3 };

static pthread_barrier_t barrier;
static atomic_int values[THREADS];

static void check(int round)
{
    for (int i = 0; i < THREADS; i++)
        must(values[i] == round, "a value of another round");
}

static void *work(void *number)
{
    for (int i = 1; i <= ROUNDS; i++) {
        values[(long)number] = i;
        pthread_barrier_wait(&barrier);
        check(i);
#ifdef RIGHT
        pthread_barrier_wait(&barrier);
#endif
    }
    return NULL;
}

int main(void)
{
    pthread_barrier_init(&barrier, NULL, THREADS);
    for (int i = 0; i < THREADS; i++)
        begin(work, i);
    join();
}
