/* k-means: points of a fixed seed are put to the nearest of some centres, which move to the middle of their points, until
 * none moves. */
#include <pthread.h>
#include <stdio.h>
#include <string.h>

#ifndef POINTS
#define POINTS 1200
#endif
enum { THREADS = 4, CENTRES = 5, DIMENSIONS = 3, RANGE = 1000 };

struct sums {
    long coordinates[CENTRES][DIMENSIONS];
    long members[CENTRES];
    int moved;
};

static int points[POINTS][DIMENSIONS];
static int centres[CENTRES][DIMENSIONS];
static int nearest[POINTS];
static struct sums parts[THREADS];
static pthread_barrier_t barrier;
static int is_over, rounds;

static long distance(const int *one, const int *other)
{
    long sum = 0;
    for (int i = 0; i < DIMENSIONS; i++)
        sum += (long)(one[i] - other[i]) * (one[i] - other[i]);
    return sum;
}

static int nearest_centre(const int *point)
{
    int best = 0;
    for (int i = 1; i < CENTRES; i++)
        if (distance(point, centres[i]) < distance(point, centres[best]))
            best = i;
    return best;
}

static void assign(struct sums *sums, int point)
{
    int centre = nearest_centre(points[point]);
    sums->moved += centre != nearest[point];
    nearest[point] = centre;
    sums->members[centre]++;
    for (int i = 0; i < DIMENSIONS; i++)
        sums->coordinates[centre][i] += points[point][i];
}

static void move_centre(int centre)
{
    long members = 0, sums[DIMENSIONS] = {0};
    for (int i = 0; i < THREADS; i++) {
        members += parts[i].members[centre];
        for (int k = 0; k < DIMENSIONS; k++)
            sums[k] += parts[i].coordinates[centre][k];
    }
    for (int k = 0; k < DIMENSIONS && members > 0; k++)
        centres[centre][k] = (int)(sums[k] / members);
}

static void move_centres(void)
{
    int moved = 0;
    for (int i = 0; i < THREADS; i++)
        moved += parts[i].moved;
    for (int centre = 0; centre < CENTRES; centre++)
        move_centre(centre);
    is_over = moved == 0;
    rounds++;
}

static void *cluster(void *argument)
{
    int me = *(int *)argument;
    while (!is_over) {
        memset(&parts[me], 0, sizeof parts[me]);
        for (int i = POINTS * me / THREADS; i < POINTS * (me + 1) / THREADS; i++)
            assign(&parts[me], i);
        if (pthread_barrier_wait(&barrier) == PTHREAD_BARRIER_SERIAL_THREAD)
            move_centres();
        pthread_barrier_wait(&barrier);
    }
    return NULL;
}

int main(void)
{
    pthread_t threads[THREADS];
    int numbers[THREADS], wrong = 0;
    unsigned state = 3;
    for (int i = 0; i < POINTS; i++) {
        nearest[i] = -1;
        for (int k = 0; k < DIMENSIONS; k++) {
            state = state * 1103515245u + 12345u;
            points[i][k] = (int)(state >> 16) % (RANGE / 2) + (i % CENTRES) * RANGE / CENTRES;
        }
    }
    for (int i = 0; i < CENTRES; i++)
        memcpy(centres[i], points[i], sizeof centres[i]);
    pthread_barrier_init(&barrier, NULL, THREADS);
    for (int i = 0; i < THREADS; i++) {
        numbers[i] = i;
        pthread_create(&threads[i], NULL, cluster, &numbers[i]);
    }
    for (int i = 0; i < THREADS; i++)
        pthread_join(threads[i], NULL);
    for (int i = 0; i < CENTRES; i++)
        printf("centre %d: %d %d %d\n", i, centres[i][0], centres[i][1], centres[i][2]);
    for (int i = 0; i < POINTS; i++)
        wrong += nearest_centre(points[i]) != nearest[i];
    printf("%d rounds, %d points elsewhere\n", rounds, wrong);
    return wrong != 0;
}
