/* Two threads store to the same bytes and to neighbours, in several phases: some stores are merged, some are what was there. */
#include <pthread.h>
#include <sched.h>

static unsigned char bytes[64];
static unsigned words[8];

static void *even(void *argument)
{
    for (int round = 0; round < 3; round++) {
        for (int i = 0; i < 64; i += 2)
            bytes[i] = i + round;
        words[round] = 0x01020304 + round;
        sched_yield();
    }
    return argument;
}

static void *third(void *argument)
{
    for (int round = 0; round < 3; round++) {
        for (int i = 1; i < 64; i += 3)
            bytes[i] = i + 7 * round;
        words[round] = 0x01000005;
        ((char *)words)[21 + round] = round;
        sched_yield();
    }
    return argument;
}

int main(void)
{
    pthread_t threads[2];
    pthread_create(&threads[0], NULL, even, NULL);
    pthread_create(&threads[1], NULL, third, NULL);
    for (int i = 0; i < 2; i++)
        pthread_join(threads[i], NULL);
    return bytes[1] + words[0];
}
