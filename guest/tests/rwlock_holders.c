/* Each thread frees its own read locks alone, and one that reads a lock passes a writer at that lock alone. */
#define _GNU_SOURCE
#include <errno.h>
#include <pthread.h>
#include <stdio.h>
#include <unistd.h>

enum {
    LOCKS = 12
};

static pthread_rwlock_t first = PTHREAD_RWLOCK_INITIALIZER, second = PTHREAD_RWLOCK_INITIALIZER, many[LOCKS];

static void *frees(void *argument)
{
    (void)argument;
    printf("another one's lock: %s\n", pthread_rwlock_unlock(&first) == EPERM ? "EPERM" : "freed");
    printf("still read: %s\n", pthread_rwlock_trywrlock(&first) == EBUSY ? "yes" : "no");
    return NULL;
}

static void *writes(void *argument)
{
    pthread_rwlock_wrlock(argument);
    printf("the writer writes\n");
    pthread_rwlock_unlock(argument);
    return NULL;
}

static void *reads(void *argument)
{
    pthread_rwlock_t *lock = argument;
    pthread_rwlock_rdlock(lock);
    printf("the reader reads\n");
    pthread_rwlock_unlock(lock);
    return NULL;
}

/* A writer waits at `lock`, which this thread reads: whether a reader goes before it. */
static void try_to_pass(const char *name, pthread_rwlock_t *lock)
{
    pthread_t writer, reader;
    printf("%s\n", name);
    pthread_create(&writer, NULL, writes, lock);
    usleep(1000);
    pthread_create(&reader, NULL, reads, lock);
    usleep(1000);
    printf("again: %s\n", pthread_rwlock_tryrdlock(lock) == 0 ? "passes" : "waits");
    if (pthread_rwlock_unlock(lock) == 0)
        pthread_rwlock_unlock(lock);
    pthread_join(writer, NULL);
    pthread_join(reader, NULL);
}

static void of_kind(const char *name, int kind)
{
    pthread_rwlockattr_t attributes;
    pthread_rwlock_t lock;
    int got;
    pthread_rwlockattr_init(&attributes);
    pthread_rwlockattr_setkind_np(&attributes, kind);
    pthread_rwlockattr_getkind_np(&attributes, &got);
    pthread_rwlock_init(&lock, &attributes);
    pthread_rwlock_rdlock(&lock);
    try_to_pass(got == kind ? name : "?", &lock);
    pthread_rwlock_destroy(&lock);
}

int main(void)
{
    pthread_t thread, writer;
    pthread_rwlock_rdlock(&first);
    pthread_create(&thread, NULL, frees, NULL);
    pthread_join(thread, NULL);

    pthread_rwlock_wrlock(&second);
    pthread_create(&writer, NULL, writes, &second);
    usleep(1000);
    pthread_rwlock_unlock(&second);
    pthread_join(writer, NULL);
    pthread_rwlock_rdlock(&second);
    pthread_create(&writer, NULL, writes, &second);
    usleep(1000);
    pthread_create(&thread, NULL, reads, &second);
    usleep(1000);
    printf("a reader of this lock: %s\n", pthread_rwlock_tryrdlock(&second) == 0 ? "passes" : "waits");
    pthread_rwlock_unlock(&second);
    pthread_rwlock_unlock(&second);
    pthread_join(writer, NULL);
    pthread_join(thread, NULL);
    pthread_rwlock_unlock(&first);
    printf("freed too often: %s\n", pthread_rwlock_unlock(&first) == EPERM ? "EPERM" : "?");

    for (int i = 0; i < LOCKS; i++) {
        pthread_rwlock_init(&many[i], NULL);
        pthread_rwlock_rdlock(&many[i]);
        pthread_rwlock_rdlock(&many[i / 2]);
    }
    int freed = 0;
    for (int i = 0; i < LOCKS; i++)
        while (pthread_rwlock_unlock(&many[i]) == 0)
            freed++;
    printf("%d freed\n", freed);

    of_kind("readers first", PTHREAD_RWLOCK_PREFER_READER_NP);
    of_kind("writers first", PTHREAD_RWLOCK_PREFER_WRITER_NP);
    of_kind("writers first, always", PTHREAD_RWLOCK_PREFER_WRITER_NONRECURSIVE_NP);
    return 0;
}
