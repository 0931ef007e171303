#include <pthread.h>
#include <unistd.h>
static volatile int stop;
static void *computes(void *argument) { while (!stop); return argument; }
int main(void)
{
    pthread_t thread;
    pthread_create(&thread, 0, computes, 0);
    usleep(1000);
    stop = 1;
    return pthread_join(thread, 0);
}
