/* Misuse: a spin lock is freed by another thread. Right: by its own. */
#include "checks.h"

static pthread_spinlock_t spin;
static sem_t turn;

static void *let_go(void *argument)
{
    sem_wait(&turn);
    IF_WRONG(pthread_spin_unlock(&spin));
    sem_post(&turn);
    return argument;
}

int main(void)
{
    sem_init(&turn, 0, 0);
    pthread_spin_init(&spin, PTHREAD_PROCESS_PRIVATE);
    pthread_t thread = begun(let_go, NULL);
    pthread_spin_lock(&spin);
    sem_post(&turn);
    ended(thread);
    pthread_spin_unlock(&spin);
}
