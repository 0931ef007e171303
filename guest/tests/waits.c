/* Handlers run in threads that wait at barriers and for locks, calls on streams are cancellation points, a thread of the asynchronous type is
 * cancelled while it waits for a mutex, and stacks may exceed the heap together. */
#define _GNU_SOURCE
#include <pthread.h>
#include <signal.h>
#include <stdatomic.h>
#include <stdio.h>
#include <stdlib.h>
#include <unistd.h>

enum {
    WAITING = 3,
    SIGNALS = 3,
    MANY = 100,
    SHORT_TIME = 1000,
    ROOM = 65536
};

static pthread_barrier_t barrier;
static pthread_mutex_t mutex = PTHREAD_MUTEX_INITIALIZER;
static pthread_rwlock_t lock = PTHREAD_RWLOCK_INITIALIZER;
static pthread_t waiting[WAITING];
static atomic_int handled[WAITING], locked;
static int cleaned;

static void handler(int number)
{
    (void)number;
    for (int i = 0; i < WAITING; i++)
        if (pthread_equal(pthread_self(), waiting[i]))
            handled[i]++;
}

static void *at_barrier(void *unused)
{
    pthread_barrier_wait(&barrier);
    pthread_barrier_wait(&barrier);
    return unused;
}

static void *at_mutex(void *unused)
{
    pthread_mutex_lock(&mutex);
    locked++;
    pthread_mutex_unlock(&mutex);
    return unused;
}

static void *at_lock(void *unused)
{
    pthread_rwlock_wrlock(&lock);
    pthread_rwlock_unlock(&lock);
    return unused;
}

static void handlers(void)
{
    void *(*const starts[WAITING])(void *) = {at_barrier, at_mutex, at_lock};
    struct sigaction action = {.sa_handler = handler};
    sigaction(SIGUSR1, &action, NULL);
    pthread_barrier_init(&barrier, NULL, 2);
    pthread_rwlock_rdlock(&lock);
    pthread_mutex_lock(&mutex);
    for (int i = 0; i < WAITING; i++)
        pthread_create(&waiting[i], NULL, starts[i], NULL);
    usleep(SHORT_TIME);
    for (int i = 0; i < SIGNALS * WAITING; i++) {
        pthread_kill(waiting[i % WAITING], SIGUSR1);
        usleep(SHORT_TIME);
    }
    printf("handled %d %d %d, locked %d\n", handled[0], handled[1], handled[2], locked);
    pthread_barrier_wait(&barrier);
    pthread_barrier_wait(&barrier);
    pthread_mutex_unlock(&mutex);
    pthread_rwlock_unlock(&lock);
    for (int i = 0; i < WAITING; i++)
        pthread_join(waiting[i], NULL);
    printf("locked %d\n", locked);
}

static void clean(void *unused)
{
    (void)unused;
    cleaned++;
}

static void *reads(void *file)
{
    char text[10];
    pthread_cleanup_push(clean, NULL);
    fgets(text, sizeof text, file);
    pthread_cleanup_pop(0);
    return NULL;
}

static void *prints(void *file)
{
    pthread_cleanup_push(clean, NULL);
    for (;;)
        fprintf(file, "text");
    pthread_cleanup_pop(0);
    return NULL;
}

static void *locks(void *unused)
{
    pthread_setcanceltype(PTHREAD_CANCEL_ASYNCHRONOUS, NULL);
    pthread_mutex_lock(&mutex);
    return unused;
}

static void *cancels_itself(void *unused)
{
    pthread_cancel(pthread_self());
    puts("is not printed");
    return unused;
}

static void cancelled(const char *name, void *(*start)(void *), void *argument)
{
    pthread_t thread;
    void *result;
    pthread_create(&thread, NULL, start, argument);
    usleep(SHORT_TIME);
    pthread_cancel(thread);
    pthread_join(thread, &result);
    printf("%s %d %d\n", name, result == PTHREAD_CANCELED, cleaned);
}

static void cancellations(void)
{
    int ends[2];
    char text[10] = "nothing\n";
    pipe(ends);
    FILE *in = fdopen(ends[0], "r"), *null = fopen("/dev/null", "w");
    cancelled("reads", reads, in);
    write(ends[1], "text\n", 5);
    printf("then %s", fgets(text, sizeof text, in));
    cancelled("prints", prints, null);
    pthread_mutex_lock(&mutex);
    cancelled("locks", locks, NULL);
    pthread_mutex_unlock(&mutex);
    cancelled("itself", cancels_itself, NULL);
}

static void *own_size(void *size)
{
    pthread_attr_t attributes;
    void *base;
    pthread_getattr_np(pthread_self(), &attributes);
    pthread_attr_getstack(&attributes, &base, size);
    pthread_barrier_wait(&barrier);
    return NULL;
}

/* 100 stacks of 1 MiB. */
static void stacks(void)
{
    pthread_attr_t attributes;
    pthread_t threads[MANY];
    size_t sizes[MANY];
    int made = 0;
    pthread_barrier_init(&barrier, NULL, MANY);
    pthread_attr_init(&attributes);
    pthread_attr_setstacksize(&attributes, 1 << 20);
    for (int i = 0; i < MANY; i++)
        made += pthread_create(&threads[i], &attributes, own_size, &sizes[i]) == 0;
    for (int i = 0; i < MANY; i++)
        pthread_join(threads[i], NULL);
    printf("%d stacks, the first %d, the last %d\n", made, sizes[0] == 1 << 20, sizes[MANY - 1] >= 131072);
}

static void *own_place(void *place)
{
    *(void **)place = &place;
    return NULL;
}

/* A stack at an odd address. */
static void odd_stack(void)
{
    pthread_attr_t attributes;
    pthread_t thread;
    char *room = (char *)malloc(ROOM + 3) + 3, *place = NULL;
    pthread_attr_init(&attributes);
    int code = pthread_attr_setstack(&attributes, room, ROOM);
    code += pthread_create(&thread, &attributes, own_place, &place);
    pthread_join(thread, NULL);
    printf("odd stack %d %d\n", code, room < place && place < room + ROOM);
}

int main(void)
{
    handlers();
    cancellations();
    stacks();
    odd_stack();
    return 0;
}
