/* Dining philosophers: each takes the fork of the lower number first. */
#include <pthread.h>
#include <stdio.h>
#include <unistd.h>

enum { SEATS = 5, MEALS = 20 };

static pthread_mutex_t forks[SEATS];
static int uses[SEATS];
static int meals[SEATS];

static void *dine(void *argument)
{
    int seat = *(int *)argument;
    int first = seat < (seat + 1) % SEATS ? seat : (seat + 1) % SEATS;
    int second = seat + (seat + 1) % SEATS - first;
    for (int i = 0; i < MEALS; i++) {
        usleep((unsigned)(seat * 7 % 3) * 100);
        pthread_mutex_lock(&forks[first]);
        pthread_mutex_lock(&forks[second]);
        uses[first]++;
        uses[second]++;
        usleep(50);
        meals[seat]++;
        pthread_mutex_unlock(&forks[second]);
        pthread_mutex_unlock(&forks[first]);
    }
    return NULL;
}

int main(void)
{
    pthread_t threads[SEATS];
    int seats[SEATS];
    for (int i = 0; i < SEATS; i++)
        pthread_mutex_init(&forks[i], NULL);
    for (int i = 0; i < SEATS; i++) {
        seats[i] = i;
        pthread_create(&threads[i], NULL, dine, &seats[i]);
    }
    for (int i = 0; i < SEATS; i++)
        pthread_join(threads[i], NULL);
    for (int i = 0; i < SEATS; i++)
        printf("philosopher %d ate %d times, fork %d was used %d times\n", i, meals[i], i, uses[i]);
    return 0;
}
