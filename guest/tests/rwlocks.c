/* Read-write locks and spin locks. */
#include <errno.h>
#include <pthread.h>
#include <stdio.h>
#include <time.h>
#include <unistd.h>

static pthread_rwlock_t lock = PTHREAD_RWLOCK_INITIALIZER;
static pthread_spinlock_t spin;
static pthread_barrier_t barrier;
static int value, copy, torn, spun;

static void *reads(void *argument)
{
    for (int i = 0; i < 50; i++) {
        pthread_rwlock_rdlock(&lock);
        if (value != copy)
            torn++;
        pthread_rwlock_unlock(&lock);
    }
    return argument;
}

static void *writes(void *argument)
{
    for (int i = 0; i < 50; i++) {
        pthread_rwlock_wrlock(&lock);
        value++;
        sched_yield();
        copy++;
        pthread_rwlock_unlock(&lock);
    }
    return argument;
}

static void *reads_together(void *argument)
{
    pthread_rwlock_rdlock(&lock);
    pthread_barrier_wait(&barrier);
    pthread_rwlock_rdlock(&lock);
    pthread_rwlock_unlock(&lock);
    pthread_rwlock_unlock(&lock);
    return argument;
}

static void *spins(void *argument)
{
    for (int i = 0; i < 100; i++) {
        pthread_spin_lock(&spin);
        spun++;
        pthread_spin_unlock(&spin);
    }
    return argument;
}

static void *tries(void *argument)
{
    struct timespec time;
    clock_gettime(CLOCK_REALTIME, &time);
    time.tv_sec++;
    printf("%s:", (const char *)argument);
    int codes[4] = {pthread_rwlock_tryrdlock(&lock), pthread_rwlock_trywrlock(&lock), 0, 0};
    if (codes[0] == 0)
        pthread_rwlock_unlock(&lock);
    codes[2] = pthread_rwlock_timedrdlock(&lock, &time);
    if (codes[2] == 0)
        pthread_rwlock_unlock(&lock);
    codes[3] = pthread_rwlock_timedwrlock(&lock, &time);
    for (int i = 0; i < 4; i++)
        printf(" %s", codes[i] == 0 ? "0" : codes[i] == EBUSY ? "EBUSY" : codes[i] == ETIMEDOUT ? "ETIMEDOUT" : "?");
    printf("\n");
    return NULL;
}

static void in_thread(void *(*routine)(void *), void *argument)
{
    pthread_t thread;
    pthread_create(&thread, NULL, routine, argument);
    pthread_join(thread, NULL);
}

int main(void)
{
    pthread_t threads[6];
    for (int i = 0; i < 6; i++)
        pthread_create(&threads[i], NULL, i % 3 ? reads : writes, NULL);
    for (int i = 0; i < 6; i++)
        pthread_join(threads[i], NULL);
    printf("value %d, copy %d, torn %d\n", value, copy, torn);

    pthread_barrier_init(&barrier, NULL, 4);
    for (int i = 0; i < 4; i++)
        pthread_create(&threads[i], NULL, reads_together, NULL);
    for (int i = 0; i < 4; i++)
        pthread_join(threads[i], NULL);

    pthread_rwlock_rdlock(&lock);
    in_thread(tries, "read");
    pthread_rwlock_unlock(&lock);
    pthread_rwlock_wrlock(&lock);
    in_thread(tries, "written");
    printf("own %s\n", pthread_rwlock_rdlock(&lock) == EDEADLK ? "EDEADLK" : "?");
    pthread_rwlock_unlock(&lock);
    printf("destroy %d\n", pthread_rwlock_destroy(&lock));
    for (int i = 0; i < 2; i++) {
        pthread_rwlock_init(&lock, NULL);
        int code = i ? pthread_rwlock_wrlock(&lock) : pthread_rwlock_rdlock(&lock) | pthread_rwlock_rdlock(&lock);
        printf("destroy a held one %d %d\n", code, pthread_rwlock_destroy(&lock));
    }

    pthread_spin_init(&spin, PTHREAD_PROCESS_PRIVATE);
    for (int i = 0; i < 4; i++)
        pthread_create(&threads[i], NULL, spins, NULL);
    for (int i = 0; i < 4; i++)
        pthread_join(threads[i], NULL);
    pthread_spin_lock(&spin);
    printf("spun %d, try %s\n", spun, pthread_spin_trylock(&spin) == EBUSY ? "EBUSY" : "?");
    pthread_spin_unlock(&spin);
    pthread_spin_destroy(&spin);
    return 0;
}
