/* Heat that spreads over a plate: each thread has some rows, and a barrier ends each step. */
#include <pthread.h>
#include <stdio.h>
#include <stdlib.h>

#ifndef SIZE
#define SIZE 48
#endif
#ifndef STEPS
#define STEPS 20
#endif
/* Whether the result is worked out again by one thread. */
#ifndef CHECK
#define CHECK 1
#endif
enum { THREADS = 4, HOT = 1000000 };

static int plates[2][SIZE][SIZE];
static int checked[2][SIZE][SIZE];
static pthread_barrier_t barrier;

static void step_row(int (*from)[SIZE], int (*to)[SIZE], int row)
{
    for (int i = 1; i < SIZE - 1; i++)
        to[row][i] = (from[row - 1][i] + from[row + 1][i] + from[row][i - 1] + from[row][i + 1]) / 4;
}

static void *spread(void *argument)
{
    int me = *(int *)argument;
    int first = 1 + (SIZE - 2) * me / THREADS, end = 1 + (SIZE - 2) * (me + 1) / THREADS;
    for (int step = 0; step < STEPS; step++) {
        for (int row = first; row < end; row++)
            step_row(plates[step % 2], plates[(step + 1) % 2], row);
        pthread_barrier_wait(&barrier);
    }
    return NULL;
}

static void heat(int (*plate)[SIZE])
{
    for (int i = 0; i < SIZE; i++)
        plate[0][i] = HOT;
}

static int differences(void)
{
    int count = 0;
    for (int step = 0; step < STEPS; step++)
        for (int row = 1; row < SIZE - 1; row++)
            step_row(checked[step % 2], checked[(step + 1) % 2], row);
    for (int row = 0; row < SIZE; row++)
        for (int i = 0; i < SIZE; i++)
            count += plates[STEPS % 2][row][i] != checked[STEPS % 2][row][i];
    return count;
}

int main(void)
{
    pthread_t threads[THREADS];
    int numbers[THREADS];
    for (int i = 0; i < 2; i++) {
        heat(plates[i]);
        heat(checked[i]);
    }
    pthread_barrier_init(&barrier, NULL, THREADS);
    for (int i = 0; i < THREADS; i++) {
        numbers[i] = i;
        pthread_create(&threads[i], NULL, spread, &numbers[i]);
    }
    for (int i = 0; i < THREADS; i++)
        pthread_join(threads[i], NULL);
    int wrong = CHECK ? differences() : 0;
    printf("below the edge %d, %d differences\n", plates[STEPS % 2][1][SIZE / 2], wrong);
    return wrong != 0;
}
