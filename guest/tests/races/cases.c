/* Two threads, and what they do in a case: `-DCASE=name` chooses it. tools/dt test races knows which accesses race in each. */
#include <dthreads.h>
#include <pthread.h>
#include <semaphore.h>
#include <stdatomic.h>
#include <stdlib.h>
#include <string.h>

#define lost_update 1
#define under_mutex 2
#define reader_without_mutex 3
#define neighbouring_bytes 4
#define plain_flag 5
#define atomic_flag 6
#define phases_apart 7
#define barrier_ends 8
#define freed_block 9
#define same_value 10
#define one_path_locked 11
#define beside_created 12
#define joined 13
#define signalled 14
#define posted 15
#define read_write_lock 16
#define own_lock 17
#define once_made 18
#define text_beside 19
#define text_changed 20
#define relaxed_flag 21
#define accessed_flag 22

static pthread_mutex_t mutex = PTHREAD_MUTEX_INITIALIZER;
static pthread_cond_t condition = PTHREAD_COND_INITIALIZER;
static pthread_rwlock_t shared = PTHREAD_RWLOCK_INITIALIZER;
static pthread_once_t made = PTHREAD_ONCE_INIT;
static pthread_barrier_t barrier;
static sem_t semaphore;
static atomic_int ready;
volatile int counter, flag;
volatile char bytes[4];
/* A text whose last word has a byte of others. */
_Alignas(16) struct {
    char text[42];
    char behind[6];
} texts = {"a text that is longer than two rounds: 41", ""};

static void meet(void)
{
    atomic_fetch_add(&ready, 0);
}

static void make(void)
{
    counter = 1;
}

__attribute__((noinline)) static void one(void)
{
#if CASE == lost_update
    counter++;
#elif CASE == under_mutex
    pthread_mutex_lock(&mutex);
    counter++;
    pthread_mutex_unlock(&mutex);
#elif CASE == reader_without_mutex || CASE == one_path_locked
    pthread_mutex_lock(&mutex);
    counter = 1;
    pthread_mutex_unlock(&mutex);
#elif CASE == neighbouring_bytes
    bytes[0] = 1;
#elif CASE == plain_flag
    counter = 1;
    flag = 1;
#elif CASE == atomic_flag
    counter = 1;
    atomic_store(&ready, 1);
#elif CASE == relaxed_flag
    counter = 1;
    atomic_store_explicit(&ready, 1, memory_order_relaxed);
#elif CASE == accessed_flag
    counter = 1;
    ready = 1;
#elif CASE == phases_apart || CASE == joined
    counter = 1;
#elif CASE == barrier_ends
    counter = 1;
    pthread_barrier_wait(&barrier);
#elif CASE == freed_block
    int *volatile block = malloc(400);
    *block = 1;
    free(block);
#elif CASE == same_value
    counter = 0;
#elif CASE == beside_created
    counter = 1;
#elif CASE == signalled
    pthread_mutex_lock(&mutex);
    while (!flag)
        pthread_cond_wait(&condition, &mutex);
    pthread_mutex_unlock(&mutex);
    counter++;
#elif CASE == posted
    sem_wait(&semaphore);
    counter++;
#elif CASE == read_write_lock
    pthread_rwlock_wrlock(&shared);
    counter = 1;
    pthread_rwlock_unlock(&shared);
#elif CASE == own_lock
    counter = 1;
    dthreads_hint_release(&mutex);
    atomic_store(&ready, 1);
#elif CASE == once_made
    pthread_once(&made, make);
    bytes[0] = counter;
#elif CASE == text_beside
    counter = (int)strlen(texts.text) + (strchr(texts.text, '%') != NULL) + strcmp(texts.text, "a text that is longer than three rounds");
#elif CASE == text_changed
    counter = (int)strlen(texts.text);
#endif
}

__attribute__((noinline)) static void two(void)
{
#if CASE == lost_update
    counter += 2;
#elif CASE == under_mutex
    pthread_mutex_lock(&mutex);
    counter++;
    pthread_mutex_unlock(&mutex);
#elif CASE == reader_without_mutex || CASE == same_value
    (void)counter;
#elif CASE == neighbouring_bytes
    bytes[1] = 1;
#elif CASE == plain_flag
    while (!flag)
        dthreads_sync();
    (void)counter;
#elif CASE == atomic_flag
    while (!atomic_load(&ready))
        ;
    (void)counter;
#elif CASE == relaxed_flag
    while (!atomic_load_explicit(&ready, memory_order_relaxed))
        ;
    (void)counter;
#elif CASE == accessed_flag
    while (!ready)
        ;
    (void)counter;
#elif CASE == phases_apart
    for (int i = 0; i < 10; i++)
        dthreads_sync();
    counter = 2;
#elif CASE == barrier_ends
    pthread_barrier_wait(&barrier);
    (void)counter;
#elif CASE == freed_block
    for (int i = 0; i < 10; i++)
        dthreads_sync();
    int *volatile block = malloc(400);
    *block = 2;
    free(block);
#elif CASE == one_path_locked
    counter = 2;
#elif CASE == signalled
    counter++;
    pthread_mutex_lock(&mutex);
    flag = 1;
    pthread_cond_signal(&condition);
    pthread_mutex_unlock(&mutex);
#elif CASE == posted
    counter++;
    sem_post(&semaphore);
#elif CASE == read_write_lock
    pthread_rwlock_rdlock(&shared);
    (void)counter;
    pthread_rwlock_unlock(&shared);
#elif CASE == own_lock
    while (!atomic_load(&ready))
        ;
    dthreads_hint_acquire(&mutex);
    (void)counter;
#elif CASE == once_made
    pthread_once(&made, make);
    bytes[1] = counter;
#elif CASE == text_beside
    texts.behind[0] = 1;
#elif CASE == text_changed
    texts.text[20] = 'b';
#endif
}

static void *first(void *argument)
{
    one();
    return argument;
}

static void *second(void *argument)
{
    two();
    return argument;
}

int main(void)
{
    pthread_t threads[2];
    pthread_barrier_init(&barrier, NULL, 2);
    sem_init(&semaphore, 0, 0);
    meet();
    pthread_create(&threads[0], NULL, first, NULL);
    pthread_create(&threads[1], NULL, second, NULL);
#if CASE == beside_created
    counter = 2;
#endif
    pthread_join(threads[0], NULL);
    pthread_join(threads[1], NULL);
    return counter == 3;
}
