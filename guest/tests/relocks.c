/* A thread that locks a mutex which it holds waits for ever, also if signals interrupt it. */
#include <pthread.h>
#include <signal.h>
#include <stdio.h>
#include <stdlib.h>
#include <unistd.h>
static pthread_mutex_t m = PTHREAD_MUTEX_INITIALIZER;
static pthread_t first;
static int came;
static void handler(int number)
{
    (void)number;
    came++;
}
static void *sends(void *argument)
{
    (void)argument;
    for (int i = 0; i < 3; i++) {
        usleep(1000);
        pthread_kill(first, SIGUSR1);
    }
    usleep(1000);
    printf("%d signals\n", came);
    exit(0);
}
int main(void)
{
    pthread_t t;
    struct sigaction action = {.sa_handler = handler};
    sigaction(SIGUSR1, &action, NULL);
    first = pthread_self();
    pthread_mutex_lock(&m);
    pthread_create(&t, NULL, sends, NULL);
    pthread_mutex_lock(&m);
    puts("locked twice");
    return 1;
}
