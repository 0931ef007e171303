/* Freed: a mutex of a freed block is taken. Right: the block is freed last. */
#include "checks.h"

struct account {
    int sum;
    pthread_mutex_t mutex;
};

int main(void)
{
    struct account *account = malloc(sizeof *account);
    pthread_mutex_init(&account->mutex, NULL);
    IF_WRONG(free(account));
    LOCK(account->mutex);
    UNLOCK(account->mutex);
    IF_RIGHT(free(account));
}
