/* Principal components: the means of the rows of a matrix of a fixed seed and the covariances of each two rows. Threads take
 * the next row under a mutex. */
#include <pthread.h>
#include <stdio.h>

#ifndef ROWS
#define ROWS 24
#endif
#ifndef COLUMNS
#define COLUMNS 60
#endif
enum { THREADS = 4 };

static int matrix[ROWS][COLUMNS];
static int means[ROWS];
static int covariances[ROWS][ROWS];
static pthread_mutex_t mutex = PTHREAD_MUTEX_INITIALIZER;
static int next_row;

static int take_row(void)
{
    pthread_mutex_lock(&mutex);
    int row = next_row++;
    pthread_mutex_unlock(&mutex);
    return row;
}

static void *find_means(void *argument)
{
    for (int row = take_row(); row < ROWS; row = take_row()) {
        int sum = 0;
        for (int i = 0; i < COLUMNS; i++)
            sum += matrix[row][i];
        means[row] = sum / COLUMNS;
    }
    return argument;
}

static int covariance(int one, int other)
{
    int sum = 0;
    for (int i = 0; i < COLUMNS; i++)
        sum += (matrix[one][i] - means[one]) * (matrix[other][i] - means[other]);
    return sum / (COLUMNS - 1);
}

static void *find_covariances(void *argument)
{
    for (int row = take_row(); row < ROWS; row = take_row())
        for (int other = row; other < ROWS; other++) {
            covariances[row][other] = covariance(row, other);
            covariances[other][row] = covariances[row][other];
        }
    return argument;
}

static void in_threads(void *(*routine)(void *))
{
    pthread_t threads[THREADS];
    next_row = 0;
    for (int i = 0; i < THREADS; i++)
        pthread_create(&threads[i], NULL, routine, NULL);
    for (int i = 0; i < THREADS; i++)
        pthread_join(threads[i], NULL);
}

int main(void)
{
    unsigned state = 13;
    int wrong = 0, widest = 0;
    for (int row = 0; row < ROWS; row++)
        for (int i = 0; i < COLUMNS; i++) {
            state = state * 1103515245u + 12345u;
            matrix[row][i] = (int)(state >> 16) % 100 + row * (i % 3);
        }
    in_threads(find_means);
    in_threads(find_covariances);
    for (int row = 0; row < ROWS; row++) {
        wrong += covariances[row][ROWS / 2] != covariance(ROWS / 2, row);
        if (covariances[row][row] > covariances[widest][widest])
            widest = row;
    }
    printf("row %d has mean %d and variance %d, %d cells wrong\n", widest, means[widest], covariances[widest][widest], wrong);
    return wrong != 0;
}
