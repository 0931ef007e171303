/* Misuse, by the names of C11: a mutex that nobody has is freed. Right: it is taken before. */
#include "checks.h"
#include <threads.h>

static mtx_t mutex;

int main(void)
{
    mtx_init(&mutex, mtx_plain);
    IF_RIGHT(mtx_lock(&mutex));
    mtx_unlock(&mutex);
    mtx_destroy(&mutex);
}
