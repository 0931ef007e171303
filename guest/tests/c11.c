/* Threads of C11. */
#include <stdio.h>
#include <stdlib.h>
#include <threads.h>
#include <time.h>

static mtx_t mutex;
static cnd_t condition;
static tss_t key;
static once_flag once = ONCE_FLAG_INIT;
static thread_local int mine = 3;
static int count, onces, destroyed, turn;

static void first(void)
{
    onces++;
}

static void destroy(void *value)
{
    mtx_lock(&mutex);
    destroyed += *(int *)value;
    mtx_unlock(&mutex);
    free(value);
}

static int run(void *argument)
{
    int me = *(int *)argument;
    int *value = malloc(sizeof *value);
    *value = me;
    call_once(&once, first);
    tss_set(key, value);
    mine += me;
    mtx_lock(&mutex);
    while (turn != me)
        cnd_wait(&condition, &mutex);
    count += *(int *)tss_get(key);
    turn++;
    cnd_broadcast(&condition);
    mtx_unlock(&mutex);
    if (me == 2)
        thrd_exit(mine * 100);
    return mine;
}

int main(void)
{
    thrd_t threads[5];
    int numbers[5], result, sum = 0;
    struct timespec time;
    mtx_init(&mutex, mtx_plain);
    cnd_init(&condition);
    tss_create(&key, destroy);
    for (int i = 4; i >= 0; i--) {
        numbers[i] = i;
        if (thrd_create(&threads[i], run, &numbers[i]) != thrd_success)
            return 1;
    }
    for (int i = 0; i < 5; i++) {
        thrd_join(threads[i], &result);
        sum += result;
    }
    printf("%d %d %d %d\n", count, onces, destroyed, sum);

    mtx_t recursive;
    mtx_init(&recursive, mtx_recursive | mtx_timed);
    mtx_lock(&recursive);
    printf("try %d\n", mtx_trylock(&recursive) == thrd_success);
    mtx_unlock(&recursive);
    mtx_unlock(&recursive);
    mtx_destroy(&recursive);
    timespec_get(&time, TIME_UTC);
    time.tv_sec++;
    mtx_lock(&mutex);
    printf("timed out %d\n", cnd_timedwait(&condition, &mutex, &time) == thrd_timedout);
    mtx_unlock(&mutex);
    time = (struct timespec){0, 1000};
    printf("slept %d\n", thrd_sleep(&time, NULL));
    thrd_yield();
    printf("equal %d\n", thrd_equal(thrd_current(), thrd_current()) != 0);
    return 0;
}
