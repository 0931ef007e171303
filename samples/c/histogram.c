/* Histogram: how often each value of each colour stands in an image of a fixed seed. */
#include <pthread.h>
#include <stdio.h>

#ifndef PIXELS
#define PIXELS 20000
#endif
/* Whether the result is worked out again by one thread. */
#ifndef CHECK
#define CHECK 1
#endif
enum { THREADS = 4, COLOURS = 3, VALUES = 256 };

static unsigned char image[PIXELS][COLOURS];
static unsigned counts[THREADS][COLOURS][VALUES];
static unsigned checked[COLOURS][VALUES];

static void draw(int first, int end)
{
    unsigned state = 7 + (unsigned)first;
    for (int i = first; i < end; i++)
        for (int colour = 0; colour < COLOURS; colour++) {
            state = state * 1103515245u + 12345u;
            image[i][colour] = (unsigned char)((state >> 16 & 0xff) * (state >> 24) >> 8);
        }
}

static void count_values(unsigned (*values)[VALUES], int first, int end)
{
    for (int i = first; i < end; i++)
        for (int colour = 0; colour < COLOURS; colour++)
            values[colour][image[i][colour]]++;
}

/* Draws a part of the image and counts it. */
static void *count(void *argument)
{
    int me = *(int *)argument;
    int first = PIXELS / THREADS * me, end = me + 1 < THREADS ? first + PIXELS / THREADS : PIXELS;
    draw(first, end);
    count_values(counts[me], first, end);
    return NULL;
}

int main(void)
{
    pthread_t threads[THREADS];
    int numbers[THREADS], wrong = 0;
    for (int i = 0; i < THREADS; i++) {
        numbers[i] = i;
        pthread_create(&threads[i], NULL, count, &numbers[i]);
    }
    for (int i = 0; i < THREADS; i++)
        pthread_join(threads[i], NULL);
    count_values(checked, 0, CHECK ? PIXELS : 0);
    for (int colour = 0; colour < COLOURS; colour++) {
        int most = 0;
        for (int value = 0; value < VALUES; value++) {
            for (int i = 1; i < THREADS; i++)
                counts[0][colour][value] += counts[i][colour][value];
            wrong += CHECK && counts[0][colour][value] != checked[colour][value];
            if (counts[0][colour][value] > counts[0][colour][most])
                most = value;
        }
        printf("colour %d: %d stands %u times\n", colour, most, counts[0][colour][most]);
    }
    printf("%d differences\n", wrong);
    return wrong != 0;
}
