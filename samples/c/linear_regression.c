/* Linear regression: the line that fits best through points of a fixed seed. */
#include <pthread.h>
#include <stdio.h>

#ifndef POINTS
#define POINTS 40000
#endif
/* Whether the result is worked out again by one thread. */
#ifndef CHECK
#define CHECK 1
#endif
enum { THREADS = 4, SLOPE = 3, OFFSET = 50 };

struct sums {
    long long x, y, xx, yy, xy;
};

static struct {
    short x, y;
} points[POINTS];
static struct sums parts[THREADS];

static void add(struct sums *sums, int first, int end)
{
    for (int i = first; i < end; i++) {
        int x = points[i].x, y = points[i].y;
        sums->x += x;
        sums->y += y;
        sums->xx += x * x;
        sums->yy += y * y;
        sums->xy += x * y;
    }
}

static void scatter(int first, int end)
{
    unsigned state = 5 + (unsigned)first;
    for (int i = first; i < end; i++) {
        state = state * 1103515245u + 12345u;
        points[i].x = (short)(state >> 16 & 0x3ff);
        points[i].y = (short)(SLOPE * points[i].x + OFFSET + (int)(state >> 27) - 16);
    }
}

/* Scatters a part of the points and adds them. */
static void *sum(void *argument)
{
    int me = *(int *)argument;
    int first = POINTS / THREADS * me, end = me + 1 < THREADS ? first + POINTS / THREADS : POINTS;
    struct sums sums = {0};
    scatter(first, end);
    add(&sums, first, end);
    parts[me] = sums;
    return NULL;
}

int main(void)
{
    pthread_t threads[THREADS];
    int numbers[THREADS];
    struct sums all = {0}, checked = {0};
    for (int i = 0; i < THREADS; i++) {
        numbers[i] = i;
        pthread_create(&threads[i], NULL, sum, &numbers[i]);
    }
    for (int i = 0; i < THREADS; i++) {
        pthread_join(threads[i], NULL);
        all.x += parts[i].x;
        all.y += parts[i].y;
        all.xx += parts[i].xx;
        all.yy += parts[i].yy;
        all.xy += parts[i].xy;
    }
    add(&checked, 0, CHECK ? POINTS : 0);
    int is_right = !CHECK || (all.x == checked.x && all.y == checked.y && all.xx == checked.xx && all.yy == checked.yy
                && all.xy == checked.xy);
    double n = POINTS, x = (double)all.x, y = (double)all.y, xx = (double)all.xx, xy = (double)all.xy;
    double slope = (n * xy - x * y) / (n * xx - x * x);
    printf("slope %.3f, offset %.2f, sums %s\n", slope, (y - slope * x) / n, is_right ? "right" : "wrong");
    return !is_right;
}
