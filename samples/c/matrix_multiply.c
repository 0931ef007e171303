/* Multiplication of two matrices of a fixed seed: each thread has some rows of the product. */
#include <pthread.h>
#include <stdio.h>

#ifndef SIZE
#define SIZE 40
#endif
enum { THREADS = 4 };

static int left[SIZE][SIZE], right[SIZE][SIZE], product[SIZE][SIZE];

static int cell(int row, int column)
{
    int sum = 0;
    for (int i = 0; i < SIZE; i++)
        sum += left[row][i] * right[i][column];
    return sum;
}

static void *multiply(void *argument)
{
    int me = *(int *)argument;
    for (int row = SIZE * me / THREADS; row < SIZE * (me + 1) / THREADS; row++)
        for (int column = 0; column < SIZE; column++)
            product[row][column] = cell(row, column);
    return NULL;
}

/* How many rows of the product have another sum than the factors say. */
static int differences(void)
{
    static int sums[SIZE];
    int wrong = 0;
    for (int row = 0; row < SIZE; row++)
        for (int i = 0; i < SIZE; i++)
            sums[row] += right[row][i];
    for (int row = 0; row < SIZE; row++) {
        int by_product = 0, by_factors = 0;
        for (int i = 0; i < SIZE; i++) {
            by_factors += left[row][i] * sums[i];
            by_product += product[row][i];
        }
        wrong += by_product != by_factors;
    }
    return wrong;
}

int main(void)
{
    pthread_t threads[THREADS];
    int numbers[THREADS], trace = 0;
    unsigned state = 11;
    for (int row = 0; row < SIZE; row++)
        for (int column = 0; column < SIZE; column++) {
            state = state * 1103515245u + 12345u;
            left[row][column] = (int)(state >> 16) % 100;
            right[row][column] = (int)(state >> 24) % 100;
        }
    for (int i = 0; i < THREADS; i++) {
        numbers[i] = i;
        pthread_create(&threads[i], NULL, multiply, &numbers[i]);
    }
    for (int i = 0; i < THREADS; i++)
        pthread_join(threads[i], NULL);
    for (int i = 0; i < SIZE; i++)
        trace += product[i][i];
    int wrong = differences();
    printf("trace %d, %d rows wrong\n", trace, wrong);
    return wrong != 0;
}
