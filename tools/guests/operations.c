// The program by which tools/dt measure library counts the turns of an operation beside another thread: it does OPERATION TIMES times.
#include <pthread.h>
#include <semaphore.h>
#include <stdatomic.h>
#include <stdio.h>
#include <stdlib.h>
#include <time.h>
#include <unistd.h>

static pthread_mutex_t mutex = PTHREAD_MUTEX_INITIALIZER, second = PTHREAD_MUTEX_INITIALIZER;
static pthread_cond_t condition = PTHREAD_COND_INITIALIZER;
static pthread_rwlock_t rwlock = PTHREAD_RWLOCK_INITIALIZER;
static pthread_once_t once = PTHREAD_ONCE_INIT;
static pthread_spinlock_t spin;
static pthread_barrier_t single;
static pthread_key_t key;
static sem_t semaphore, never;
static atomic_int number;
static _Atomic int plain;
static volatile int sink;
static struct timespec now, short_time = {0, 1000};

static void nothing(void) {}
static void *waits(void *argument) { sem_wait(&never); return argument; }
static void *ends(void *argument) { return argument; }

int main(void)
{
    pthread_t thread, other;
    pthread_spin_init(&spin, 0);
    pthread_barrier_init(&single, NULL, 1);
    pthread_key_create(&key, NULL);
    sem_init(&semaphore, 0, 1000);
    sem_init(&never, 0, 0);
    pthread_create(&thread, NULL, waits, NULL);
    pthread_create(&other, NULL, ends, NULL);
    pthread_join(other, NULL);
    pthread_once(&once, nothing);
    free(malloc(40));
    usleep(100);
    for (int i = 0; i < TIMES; i++) {
        OPERATION
    }
    (void)sink;
    return 0;
}
