/* The hints that functions of the library execute, a row each. tools/dt test hints traces them, and hints.wanted says what they must be.
 * A row begins where its symbol is acquired, and ends where it is released. */
#include <errno.h>
#include <pthread.h>
#include <semaphore.h>
#include <signal.h>
#include <stdatomic.h>
#include <stdio.h>
#include <stdlib.h>
#include <string.h>
#include <sys/mman.h>
#include <threads.h>
#include <time.h>
#include <unistd.h>
#include <dthreads.h>

#define ROW(name, ...) \
    do { \
        static const char row_##name; \
        dthreads_hint_acquire(&row_##name); \
        __VA_ARGS__; \
        dthreads_hint_release(&row_##name); \
    } while (0)

#define CHECK(condition) \
    do { \
        if (!(condition)) \
            abort(); \
    } while (0)

/* What the compiler and the C library call, which no header declares. */
struct __lock;
extern struct __lock __lock___libc_recursive_mutex;
void __retarget_lock_acquire_recursive(struct __lock *);
int __retarget_lock_try_acquire_recursive(struct __lock *);
void __retarget_lock_release_recursive(struct __lock *);
int __cxa_guard_acquire(void *);
void __cxa_guard_release(void *);

pthread_mutex_t mutex = PTHREAD_MUTEX_INITIALIZER, other_mutex = PTHREAD_MUTEX_INITIALIZER;
pthread_mutex_t recursive = PTHREAD_RECURSIVE_MUTEX_INITIALIZER_NP, robust;
pthread_cond_t condition = PTHREAD_COND_INITIALIZER;
pthread_rwlock_t rwlock = PTHREAD_RWLOCK_INITIALIZER;
pthread_spinlock_t spin;
pthread_barrier_t barrier;
pthread_once_t once = PTHREAD_ONCE_INIT;
pthread_key_t key;
mtx_t mtx;
sem_t semaphore;
atomic_int number;
_Atomic int plain;
_Atomic char plain_byte;
_Atomic long long plain_long;
struct {
    int other;
    _Atomic short half;
} plain_parts[2];
pthread_mutex_t checked;
atomic_flag flag = ATOMIC_FLAG_INIT;
int loaded, cleaned, ready;
struct timespec past = {.tv_sec = 0}, soon = {.tv_sec = 946684801};
char buffer[64], many[20000], plain_stack[4096] __attribute__((aligned(16)));
uint64_t guard;
void *volatile block, *volatile large;

static void nothing(void) {}

static void *empty(void *argument)
{
    ROW(start_routine, (void)0);
    return argument;
}

static void *leaves_by_exit(void *argument)
{
    pthread_exit(argument);
}

static void *ends_with_robust(void *argument)
{
    pthread_mutex_lock(&robust);
    return argument;
}

static void *ends_with_mutex(void *argument)
{
    pthread_mutex_lock(&other_mutex);
    return argument;
}

static void clean(void *argument)
{
    ROW(cleanup, cleaned++);
    (void)argument;
}

static void *is_cancelled(void *argument)
{
    pthread_cleanup_push(clean, NULL);
    pthread_mutex_lock(&other_mutex);
    for (;;)
        ROW(wait_that_is_cancelled, pthread_cond_wait(&condition, &other_mutex));
    pthread_cleanup_pop(0);
    return argument;
}

static void *waits(void *argument)
{
    pthread_mutex_lock(&mutex);
    while (!ready)
        ROW(pthread_cond_wait, pthread_cond_wait(&condition, &mutex));
    pthread_mutex_unlock(&mutex);
    return argument;
}

static void *arrives(void *argument)
{
    for (int i = 0; i < 2; i++)
        ROW(pthread_barrier_wait, pthread_barrier_wait(&barrier));
    return argument;
}

static void *posts(void *argument)
{
    usleep(1000);
    ROW(sem_post_to_a_waiter, sem_post(&semaphore));
    return argument;
}

static void *locks(void *argument)
{
    ROW(pthread_mutex_lock_that_waits, pthread_mutex_lock(&mutex));
    pthread_mutex_unlock(&mutex);
    return argument;
}

static void *destroys(void *argument)
{
    pthread_setspecific(key, &key);
    return argument;
}

static void destroy(void *value)
{
    ROW(destructor, (void)value);
}

static void mutexes(void)
{
    pthread_mutexattr_t attributes;
    ROW(pthread_mutex_lock, CHECK(pthread_mutex_lock(&mutex) == 0));
    ROW(pthread_mutex_trylock_of_another, CHECK(pthread_mutex_trylock(&other_mutex) == 0));
    ROW(pthread_mutex_unlock_within, CHECK(pthread_mutex_unlock(&other_mutex) == 0));
    ROW(pthread_mutex_trylock_that_fails, CHECK(pthread_mutex_trylock(&mutex) == EBUSY));
    ROW(pthread_mutex_timedlock_that_fails, CHECK(pthread_mutex_timedlock(&mutex, &past) == ETIMEDOUT));
    ROW(pthread_mutex_unlock, CHECK(pthread_mutex_unlock(&mutex) == 0));
    ROW(pthread_mutex_trylock, CHECK(pthread_mutex_trylock(&mutex) == 0));
    pthread_mutex_unlock(&mutex);
    ROW(pthread_mutex_timedlock, CHECK(pthread_mutex_timedlock(&mutex, &past) == 0));
    pthread_mutex_unlock(&mutex);
    ROW(pthread_mutex_lock_of_recursive, pthread_mutex_lock(&recursive));
    ROW(pthread_mutex_lock_again, pthread_mutex_lock(&recursive));
    ROW(pthread_mutex_unlock_once, pthread_mutex_unlock(&recursive));
    ROW(pthread_mutex_unlock_twice, pthread_mutex_unlock(&recursive));
    ROW(pthread_mutex_unlock_that_fails, CHECK(pthread_mutex_unlock(&recursive) == EPERM));
    mtx_init(&mtx, mtx_plain);
    ROW(mtx_lock, mtx_lock(&mtx));
    ROW(mtx_unlock, mtx_unlock(&mtx));
    pthread_spin_init(&spin, PTHREAD_PROCESS_PRIVATE);
    ROW(pthread_spin_lock, pthread_spin_lock(&spin));
    ROW(pthread_spin_trylock_that_fails, CHECK(pthread_spin_trylock(&spin) == EBUSY));
    ROW(pthread_spin_unlock, pthread_spin_unlock(&spin));
    ROW(pthread_spin_trylock, CHECK(pthread_spin_trylock(&spin) == 0));
    pthread_spin_unlock(&spin);
    pthread_mutexattr_init(&attributes);
    pthread_mutexattr_setrobust(&attributes, PTHREAD_MUTEX_ROBUST);
    pthread_mutex_init(&robust, &attributes);
}

static void rwlocks(void)
{
    ROW(pthread_rwlock_rdlock, pthread_rwlock_rdlock(&rwlock));
    ROW(pthread_rwlock_trywrlock_that_fails, CHECK(pthread_rwlock_trywrlock(&rwlock) == EBUSY));
    ROW(pthread_rwlock_tryrdlock, CHECK(pthread_rwlock_tryrdlock(&rwlock) == 0));
    ROW(pthread_rwlock_unlock_of_a_reader, pthread_rwlock_unlock(&rwlock));
    pthread_rwlock_unlock(&rwlock);
    ROW(pthread_rwlock_wrlock, pthread_rwlock_wrlock(&rwlock));
    ROW(pthread_rwlock_rdlock_that_fails, CHECK(pthread_rwlock_rdlock(&rwlock) == EDEADLK));
    ROW(pthread_rwlock_unlock_of_a_writer, pthread_rwlock_unlock(&rwlock));
    ROW(pthread_rwlock_unlock_that_fails, CHECK(pthread_rwlock_unlock(&rwlock) == EPERM));
}

static void semaphores(void)
{
    sem_init(&semaphore, 0, 1);
    ROW(sem_wait, sem_wait(&semaphore));
    ROW(sem_trywait_that_fails, CHECK(sem_trywait(&semaphore) == -1));
    ROW(sem_timedwait_that_fails, CHECK(sem_timedwait(&semaphore, &past) == -1));
    ROW(sem_post, sem_post(&semaphore));
    ROW(sem_trywait, CHECK(sem_trywait(&semaphore) == 0));
}

static void atomics(void)
{
    int expected = 5;
    ROW(atomic_fetch_add, atomic_fetch_add(&number, 1));
    ROW(atomic_load, loaded = atomic_load(&number));
    ROW(atomic_store, atomic_store(&number, 3));
    ROW(atomic_exchange, loaded = atomic_exchange(&number, 4));
    ROW(atomic_compare_exchange, CHECK(!atomic_compare_exchange_strong(&number, &expected, 6)));
    ROW(atomic_flag_test_and_set, CHECK(!atomic_flag_test_and_set(&flag)));
    ROW(atomic_flag_clear, atomic_flag_clear(&flag));
    ROW(atomic_thread_fence, atomic_thread_fence(memory_order_seq_cst));
    ROW(sync_fetch_and_add, __sync_fetch_and_add(&loaded, 1));
    ROW(plain_store, plain = 7);
    ROW(plain_load, loaded = plain);
    ROW(plain_change, plain += 7);
    ROW(plain_store_of_a_byte, plain_byte = 7);
    ROW(plain_load_of_a_short, loaded = plain_parts[loaded & 1].half);
    ROW(plain_load_of_a_long, loaded = (int)plain_long);
}

static void orders(void)
{
    int expected = 5;
    ROW(load_relaxed, loaded = atomic_load_explicit(&number, memory_order_relaxed));
    ROW(load_acquire, loaded = atomic_load_explicit(&number, memory_order_acquire));
    ROW(store_relaxed, atomic_store_explicit(&number, 4, memory_order_relaxed));
    ROW(store_release, atomic_store_explicit(&number, 4, memory_order_release));
    ROW(change_relaxed, atomic_fetch_add_explicit(&number, 1, memory_order_relaxed));
    ROW(change_acquire, atomic_fetch_add_explicit(&number, 1, memory_order_acquire));
    ROW(change_release, atomic_fetch_add_explicit(&number, 1, memory_order_release));
    ROW(change_of_both, atomic_fetch_sub_explicit(&number, 3, memory_order_acq_rel));
    ROW(attempt_that_fails, atomic_compare_exchange_strong_explicit(&number, &expected, 6, memory_order_acq_rel, memory_order_relaxed));
    ROW(attempt_that_succeeds, atomic_compare_exchange_strong_explicit(&number, &expected, 6, memory_order_acquire, memory_order_relaxed));
    ROW(fence_acquire, atomic_thread_fence(memory_order_acquire));
    ROW(fence_release, atomic_thread_fence(memory_order_release));
    ROW(fence_of_both, atomic_thread_fence(memory_order_acq_rel));
    ROW(fence_relaxed, atomic_thread_fence(memory_order_relaxed));
    ROW(sync_lock, __sync_lock_test_and_set(&loaded, 1));
    ROW(sync_unlock, __sync_lock_release(&loaded));
}

static void memory(void)
{
    free(block = malloc(40));
    ROW(malloc, block = malloc(40));
    ROW(free, free(block));
    ROW(calloc, block = calloc(1, 40));
    ROW(realloc_in_place, block = realloc(block, 44));
    ROW(realloc, block = realloc(block, 100));
    free(block);
    ROW(aligned_alloc, block = aligned_alloc(256, 100));
    ROW(malloc_of_pages, large = malloc(10000));
    ROW(free_of_pages, free(large));
    ROW(mmap, large = mmap(NULL, 5000, PROT_READ | PROT_WRITE, MAP_PRIVATE | MAP_ANONYMOUS, -1, 0));
    ROW(munmap, munmap(large, 5000));
    ROW(malloc_that_fails, large = malloc(100000000));
    CHECK(!large);
    free(block);
}

static void others(void)
{
    int descriptors[2];
    ROW(pthread_once, pthread_once(&once, nothing));
    ROW(pthread_once_that_is_done, pthread_once(&once, nothing));
    ROW(pthread_key_create, pthread_key_create(&key, destroy));
    ROW(pthread_setspecific, pthread_setspecific(key, NULL));
    ROW(pthread_getspecific, pthread_getspecific(key));
    ROW(pthread_self, pthread_self());
    ROW(clock_gettime, clock_gettime(CLOCK_MONOTONIC, &past));
    ROW(usleep, usleep(10));
    ROW(sched_yield, sched_yield());
    pthread_mutex_lock(&mutex);
    ROW(sched_yield_with_a_mutex, sched_yield());
    pthread_mutex_unlock(&mutex);
    ROW(flockfile, flockfile(stdin));
    ROW(ftrylockfile, ftrylockfile(stdin));
    funlockfile(stdin);
    ROW(funlockfile, funlockfile(stdin));
    ROW(getchar, getchar());
    ROW(fread, CHECK(fread(many, 1, sizeof many, stdin) == sizeof many));
    FILE *file = fopen("/tmp/file", "w+");
    ROW(fputs, fputs("a line\nanother one\n", file));
    rewind(file);
    ROW(fgets, CHECK(fgets(buffer, sizeof buffer, file)));
    ROW(fgets_of_the_next, CHECK(fgets(buffer, sizeof buffer, file)));
    ROW(fread_at_the_end, CHECK(fread(buffer, 1, 1, file) == 0));
    ROW(fputs_that_fails, CHECK(fputs("none", stdin) == EOF));
    ROW(pread, CHECK(pread(fileno(file), buffer, 4, 2) == 4));
    ROW(snprintf, snprintf(buffer, sizeof buffer, "%d %s", 12, "text"));
    ROW(printf, printf("a line\n"));
    ROW(raise, raise(SIGCHLD));
    pipe(descriptors);
    ROW(write_to_a_pipe, write(descriptors[1], buffer, 3));
    ROW(read_of_a_pipe, read(descriptors[0], buffer, 3));
    ROW(close_of_a_pipe, close(descriptors[1]));
    ROW(read_at_the_end_of_a_pipe, read(descriptors[0], buffer, 3));
    ROW(c_library_lock, __retarget_lock_acquire_recursive(&__lock___libc_recursive_mutex));
    ROW(c_library_lock_again, CHECK(__retarget_lock_try_acquire_recursive(&__lock___libc_recursive_mutex)));
    ROW(c_library_unlock, __retarget_lock_release_recursive(&__lock___libc_recursive_mutex));
    __retarget_lock_release_recursive(&__lock___libc_recursive_mutex);
    ROW(guard_acquire, CHECK(__cxa_guard_acquire(&guard)));
    ROW(guard_release, __cxa_guard_release(&guard));
    ROW(guard_acquire_of_a_made_one, CHECK(!__cxa_guard_acquire(&guard)));
}

/* Makes a thread and waits for its end. */
static void made_and_joined(void *(*start)(void *))
{
    pthread_t thread;
    pthread_create(&thread, NULL, start, NULL);
    pthread_join(thread, NULL);
}

static void waiters(void)
{
    pthread_t thread;
    pthread_create(&thread, NULL, waits, NULL);
    usleep(1000);
    pthread_mutex_lock(&mutex);
    ready = 1;
    ROW(pthread_cond_signal, pthread_cond_signal(&condition));
    ROW(pthread_cond_signal_to_nobody, pthread_cond_signal(&condition));
    pthread_mutex_unlock(&mutex);
    pthread_join(thread, NULL);
    ready = 0;
    pthread_create(&thread, NULL, waits, NULL);
    usleep(1000);
    pthread_mutex_lock(&mutex);
    ready = 1;
    ROW(pthread_cond_broadcast, pthread_cond_broadcast(&condition));
    ROW(pthread_cond_timedwait_that_fails, CHECK(pthread_cond_timedwait(&condition, &mutex, &past) == ETIMEDOUT));
    pthread_mutex_unlock(&mutex);
    pthread_join(thread, NULL);
    pthread_create(&thread, NULL, locks, NULL);
    pthread_mutex_lock(&mutex);
    usleep(1000);
    pthread_mutex_unlock(&mutex);
    pthread_join(thread, NULL);
    pthread_create(&thread, NULL, posts, NULL);
    ROW(sem_wait_that_waits, sem_wait(&semaphore));
    pthread_join(thread, NULL);
    pthread_barrier_init(&barrier, NULL, 2);
    pthread_create(&thread, NULL, arrives, NULL);
    for (int i = 0; i < 2; i++)
        ROW(pthread_barrier_wait_of_the_first, pthread_barrier_wait(&barrier));
    pthread_join(thread, NULL);
}

static void lives(void)
{
    pthread_t thread;
    ROW(pthread_create, pthread_create(&thread, NULL, empty, NULL));
    ROW(pthread_tryjoin_that_fails, CHECK(pthread_tryjoin_np(thread, NULL) == EBUSY));
    ROW(pthread_join, pthread_join(thread, NULL));
    ROW(pthread_join_that_fails, CHECK(pthread_join(thread, NULL) == ESRCH));
    pthread_create(&thread, NULL, leaves_by_exit, NULL);
    ROW(pthread_detach, pthread_detach(thread));
    usleep(1000);
    made_and_joined(ends_with_robust);
    ROW(pthread_mutex_lock_of_an_ended_owner, CHECK(pthread_mutex_lock(&robust) == EOWNERDEAD));
    ROW(pthread_mutex_consistent, pthread_mutex_consistent(&robust));
    pthread_mutex_unlock(&robust);
    made_and_joined(destroys);
    pthread_create(&thread, NULL, is_cancelled, NULL);
    usleep(1000);
    ROW(pthread_cancel, pthread_cancel(thread));
    pthread_join(thread, NULL);
    CHECK(cleaned == 1);
    pthread_mutex_unlock(&other_mutex);
    made_and_joined(ends_with_mutex);
    ROW(pthread_mutex_unlock_by_another_thread, CHECK(pthread_mutex_unlock(&other_mutex) == 0));
}

/* What a program may not do, as far as it comes back. */
static void faults(void)
{
    pthread_mutexattr_t attributes;
    ROW(pthread_mutex_unlock_of_a_free_one, CHECK(pthread_mutex_unlock(&mutex) == 0));
    pthread_mutex_lock(&mutex);
    ROW(pthread_mutex_destroy_of_a_held_one, CHECK(pthread_mutex_destroy(&mutex) == EBUSY));
    pthread_mutex_unlock(&mutex);
    ROW(pthread_mutex_destroy, CHECK(pthread_mutex_destroy(&mutex) == 0));
    ROW(pthread_cond_wait_without_the_mutex, CHECK(pthread_cond_wait(&condition, &mutex) == EPERM));
    pthread_mutexattr_init(&attributes);
    pthread_mutexattr_settype(&attributes, PTHREAD_MUTEX_ERRORCHECK);
    pthread_mutex_init(&checked, &attributes);
    pthread_mutex_lock(&checked);
    ROW(pthread_mutex_lock_twice, CHECK(pthread_mutex_lock(&checked) == EDEADLK));
    pthread_mutex_unlock(&checked);
    ROW(pthread_spin_unlock_of_a_free_one, CHECK(pthread_spin_unlock(&spin) == EPERM));
    pthread_spin_lock(&spin);
    ROW(pthread_spin_destroy_of_a_held_one, CHECK(pthread_spin_destroy(&spin) == EBUSY));
    pthread_spin_unlock(&spin);
    pthread_rwlock_wrlock(&rwlock);
    ROW(pthread_rwlock_destroy_of_a_held_one, CHECK(pthread_rwlock_destroy(&rwlock) == 0));
    ROW(mtx_unlock_of_a_free_one, mtx_unlock(&mtx));
}

/* Three locks that aren't freed in the order that they were taken in, and one more. */
static void *ends_with_some(void *argument)
{
    pthread_mutex_lock(&mutex);
    pthread_mutex_lock(&other_mutex);
    pthread_mutex_lock(&checked);
    pthread_rwlock_rdlock(&rwlock);
    pthread_mutex_unlock(&mutex);
    return argument;
}

static void *waits_for_all(void *argument)
{
    pthread_mutex_lock(&mutex);
    while (!ready)
        pthread_cond_wait(&condition, &mutex);
    pthread_mutex_unlock(&mutex);
    sem_wait(&semaphore);
    pthread_barrier_wait(&barrier);
    return argument;
}

/* Destroys what another thread waits for, or waits there with another mutex. */
static void faults_beside_waiters(void)
{
    pthread_t thread;
    ready = 0;
    pthread_barrier_init(&barrier, NULL, 2);
    pthread_create(&thread, NULL, waits_for_all, NULL);
    usleep(1000);
    ROW(pthread_cond_destroy_of_a_waited_one, CHECK(pthread_cond_destroy(&condition) == EBUSY));
    pthread_mutex_lock(&other_mutex);
    ROW(pthread_cond_wait_with_another, CHECK(pthread_cond_timedwait(&condition, &other_mutex, &soon) == ETIMEDOUT));
    pthread_mutex_unlock(&other_mutex);
    pthread_mutex_lock(&mutex);
    ready = 1;
    pthread_cond_signal(&condition);
    pthread_mutex_unlock(&mutex);
    usleep(1000);
    ROW(sem_destroy_of_a_waited_one, CHECK(sem_destroy(&semaphore) == -1));
    sem_post(&semaphore);
    usleep(1000);
    ROW(pthread_barrier_destroy_of_a_waited_one, CHECK(pthread_barrier_destroy(&barrier) == EBUSY));
    pthread_barrier_wait(&barrier);
    pthread_join(thread, NULL);
    made_and_joined(ends_with_some);
}

static void plain_entry(void *argument)
{
    ROW(plain_entry, (void)argument);
}

static void plain_threads(void)
{
    uint32_t number;
    ROW(dthreads_create, dthreads_create(plain_entry, NULL, plain_stack + sizeof plain_stack, &number));
    ROW(dthreads_join, dthreads_join(number, NULL));
}

int main(void)
{
    mutexes();
    rwlocks();
    semaphores();
    atomics();
    orders();
    memory();
    others();
    waiters();
    lives();
    faults();
    faults_beside_waiters();
    plain_threads();
    ROW(pthread_exit_of_the_last, pthread_exit(NULL));
}
