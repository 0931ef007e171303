/* Sleeping at a word until its value changed, for the barriers of libgomp. */
#include <pthread.h>
#include <stdbool.h>
#include <stddef.h>

struct sleeper {
    int *word;
    bool is_woken;
    pthread_cond_t woken;
    struct sleeper *next;
};

static pthread_mutex_t guard = PTHREAD_MUTEX_INITIALIZER;
static struct sleeper *first, **end = &first;

void futex_wait(int *word, int value)
{
    struct sleeper self = { word, false, PTHREAD_COND_INITIALIZER, NULL };
    pthread_mutex_lock(&guard);
    if (*word == value) {
        *end = &self;
        end = &self.next;
        while (!self.is_woken)
            pthread_cond_wait(&self.woken, &guard);
    }
    pthread_mutex_unlock(&guard);
}

void futex_wake(int *word, int count)
{
    pthread_mutex_lock(&guard);
    struct sleeper **at = &first;
    while (*at && count > 0) {
        struct sleeper *sleeper = *at;
        if (sleeper->word != word) {
            at = &sleeper->next;
            continue;
        }
        *at = sleeper->next;
        if (!*at)
            end = at;
        sleeper->is_woken = true;
        pthread_cond_signal(&sleeper->woken);
        count--;
    }
    pthread_mutex_unlock(&guard);
}
