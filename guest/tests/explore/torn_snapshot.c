/* Two values whose sum stays are read in two sections. */
#include "explore.h"

static pthread_mutex_t mutex = PTHREAD_MUTEX_INITIALIZER;
static int one = 50, other = 50;

static void *move(void *amount)
{
    lock(&mutex);
    one -= (int)(long)amount;
    other += (int)(long)amount;
    unlock(&mutex);
    return NULL;
}

static void *look(void *argument)
{
    lock(&mutex);
    int sum = one;
#ifndef RIGHT
    unlock(&mutex);
    lock(&mutex);
#endif
    sum += other;
    unlock(&mutex);
    must(sum == 100, "another sum");
    return argument;
}

int main(void)
{
    begin(move, 10);
    begin(look, 0);
    begin(move, 20);
    join();
}
