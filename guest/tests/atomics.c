/* Atomic objects of each size, by C11, by the compiler's functions and by plain accesses. */
#include <pthread.h>
#include <stdatomic.h>
#include <stdint.h>
#include <stdio.h>

static _Atomic uint8_t byte;
static _Atomic uint16_t half;
static atomic_int word;
static _Atomic uint64_t wide;
static _Atomic double real;
static atomic_flag flag = ATOMIC_FLAG_INIT;
static int guarded, sync_word, builtin_word;
static atomic_int ready, relaxed;
static int message;
static _Atomic(int *) pointer;
static atomic_int first, second, both;

struct pair {
    int left, right, third;
};
static _Atomic struct pair pair;

static void *adds(void *argument)
{
    for (int i = 0; i < 100; i++) {
        byte++;
        half += 3;
        atomic_fetch_add(&word, 2);
        wide += UINT64_C(1) << 33;
        real += 0.5;
        __sync_fetch_and_add(&sync_word, 1);
        __atomic_add_fetch(&builtin_word, 1, __ATOMIC_RELAXED);
        while (atomic_flag_test_and_set(&flag))
            ;
        guarded++;
        atomic_flag_clear(&flag);
        struct pair old = atomic_load(&pair), fresh;
        do {
            fresh = (struct pair){old.left + 1, old.right - 1, old.left + old.right};
        } while (!atomic_compare_exchange_weak(&pair, &old, fresh));
    }
    return argument;
}

static void *sends(void *argument)
{
    message = 99;
    atomic_store_explicit(&ready, 1, memory_order_release);
    return argument;
}

static void *receives(void *argument)
{
    (void)argument;
    while (!atomic_load_explicit(&ready, memory_order_acquire))
        ;
    return (void *)(long)message;
}

static void *relaxes(void *argument)
{
    while (!atomic_load_explicit(&relaxed, memory_order_relaxed))
        ;
    return argument;
}

static void *plain(void *argument)
{
    ready = 2;
    while (ready != 3)
        ;
    return argument;
}

/* Each stores to its own object and looks at the other's: not both may see nothing. */
static void *dekker(void *argument)
{
    atomic_int *mine = argument ? &first : &second, *other = argument ? &second : &first;
    *mine = 1;
    if (*other == 0)
        both++;
    return NULL;
}

static void show(int number)
{
    printf("%d\n", number);
}

int main(void)
{
    pthread_t threads[4];
    void *value;
    for (int i = 0; i < 4; i++)
        pthread_create(&threads[i], NULL, adds, NULL);
    for (int i = 0; i < 4; i++)
        pthread_join(threads[i], NULL);
    struct pair last = pair;
    printf("%d %d %d %x%08x %.1f %d %d %d\n", byte, half, word, (unsigned)(wide >> 32), (unsigned)wide, real, guarded, sync_word,
           builtin_word);
    printf("%d %d %d\n", last.left, last.right, last.third);

    pthread_create(&threads[0], NULL, receives, NULL);
    pthread_create(&threads[1], NULL, sends, NULL);
    pthread_join(threads[0], &value);
    pthread_join(threads[1], NULL);
    printf("message %ld\n", (long)value);

    pthread_create(&threads[0], NULL, relaxes, NULL);
    atomic_store_explicit(&relaxed, 1, memory_order_relaxed);
    pthread_join(threads[0], NULL);

    pthread_create(&threads[0], NULL, plain, NULL);
    while (ready != 2)
        ;
    ready = 3;
    pthread_join(threads[0], NULL);

    for (int i = 0; i < 20; i++) {
        first = 0;
        second = 0;
        both = 0;
        pthread_create(&threads[0], NULL, dekker, NULL);
        pthread_create(&threads[1], NULL, dekker, &first);
        pthread_join(threads[0], NULL);
        pthread_join(threads[1], NULL);
        if (both == 2)
            printf("both\n");
    }

    int expected = 5, number = 7;
    atomic_store(&word, 6);
    show(atomic_compare_exchange_strong(&word, &expected, 9));
    show(expected);
    show(atomic_compare_exchange_strong(&word, &expected, 9));
    show(atomic_exchange(&word, 12));
    show(atomic_fetch_sub(&word, 2));
    show(atomic_fetch_or(&word, 5));
    show(atomic_fetch_and(&word, 6));
    show(atomic_fetch_xor(&word, 1));
    show(word);
    atomic_init(&pointer, &number);
    show(*atomic_load(&pointer));
    show(__sync_bool_compare_and_swap(&sync_word, 400, 401));
    show(__sync_val_compare_and_swap(&sync_word, 0, 1));
    show(__sync_lock_test_and_set(&sync_word, 3));
    __sync_lock_release(&sync_word);
    atomic_thread_fence(memory_order_seq_cst);
    __sync_synchronize();
    show(sync_word);
    return 0;
}
