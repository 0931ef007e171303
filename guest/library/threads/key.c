/* Thread-specific data. A value counts only as long as its key is the one that it was set for. */
#include <string.h>
#include "monitor.h"

struct key {
    /* Odd while the key is in use. */
    uint32_t use;
    void (*destructor)(void *);
};

struct value {
    uint32_t use;
    void *value;
};

static struct key keys[PTHREAD_KEYS_MAX];
static __thread struct value values[PTHREAD_KEYS_MAX];

static bool is_used(pthread_key_t key)
{
    return key < PTHREAD_KEYS_MAX && keys[key].use % 2 == 1;
}

static int free_key(void)
{
    for (int i = 0; i < PTHREAD_KEYS_MAX; i++)
        if (keys[i].use % 2 == 0)
            return i;
    return -1;
}

int pthread_key_create(pthread_key_t *key, void (*destructor)(void *))
{
    monitor_enter();
    int place = free_key();
    if (place >= 0) {
        keys[place].use++;
        keys[place].destructor = destructor;
        *key = (pthread_key_t)place;
    }
    monitor_leave();
    return place >= 0 ? 0 : EAGAIN;
}

int pthread_key_delete(pthread_key_t key)
{
    monitor_enter();
    int code = is_used(key) ? 0 : EINVAL;
    if (code == 0)
        keys[key].use++;
    monitor_leave();
    return code;
}

void *pthread_getspecific(pthread_key_t key)
{
    if (!is_used(key) || values[key].use != keys[key].use)
        return NULL;
    return values[key].value;
}

int pthread_setspecific(pthread_key_t key, const void *value)
{
    if (!is_used(key))
        return EINVAL;
    values[key] = (struct value){keys[key].use, (void *)value};
    return 0;
}

/* One round of destructors; false if none was called. */
static bool destroy_round(void)
{
    bool was_any = false;
    for (pthread_key_t key = 0; key < PTHREAD_KEYS_MAX; key++) {
        void *value = pthread_getspecific(key);
        if (!value || !keys[key].destructor)
            continue;
        values[key].value = NULL;
        keys[key].destructor(value);
        was_any = true;
    }
    return was_any;
}

void keys_destroy_values(void)
{
    for (int i = 0; i < PTHREAD_DESTRUCTOR_ITERATIONS; i++)
        if (!destroy_round())
            return;
}
