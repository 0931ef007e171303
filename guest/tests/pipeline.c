/* A pipeline of stages, each with a place between it and the next, by semaphores. The stages are a sieve of primes. */
#include <pthread.h>
#include <semaphore.h>
#include <stdio.h>
#include <stdlib.h>

enum { LAST = 100, END = -1 };

struct place {
    sem_t is_full, is_empty;
    int number;
};

static int primes[LAST], count;

static struct place *place_make(void)
{
    struct place *place = malloc(sizeof *place);
    sem_init(&place->is_full, 0, 0);
    sem_init(&place->is_empty, 0, 1);
    return place;
}

static void put(struct place *place, int number)
{
    sem_wait(&place->is_empty);
    place->number = number;
    sem_post(&place->is_full);
}

static int take(struct place *place)
{
    sem_wait(&place->is_full);
    int number = place->number;
    sem_post(&place->is_empty);
    return number;
}

/* The first number that comes is a prime; what it doesn't divide goes on. */
static void *stage(void *argument)
{
    struct place *in = argument, *out = NULL;
    pthread_t next;
    int prime = take(in);
    if (prime == END)
        return NULL;
    primes[count++] = prime;
    out = place_make();
    pthread_create(&next, NULL, stage, out);
    for (int number = take(in); number != END; number = take(in))
        if (number % prime != 0)
            put(out, number);
    put(out, END);
    pthread_join(next, NULL);
    free(out);
    return NULL;
}

int main(void)
{
    struct place *first = place_make();
    pthread_t thread;
    pthread_create(&thread, NULL, stage, first);
    for (int i = 2; i <= LAST; i++)
        put(first, i);
    put(first, END);
    pthread_join(thread, NULL);
    for (int i = 0; i < count; i++)
        printf("%d%c", primes[i], i + 1 < count ? ' ' : '\n');
    return 0;
}
