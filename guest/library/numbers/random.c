/* Random numbers by the seed of the run: the same in every run with one seed. */
#include <stdlib.h>
#include <unistd.h>
#include <sys/random.h>
#include "../files/console.h"
#include "../files/files.h"

uint64_t random_state;

/* SplitMix64. */
static uint64_t next_number(void)
{
    uint64_t number = random_state += UINT64_C(0x9E3779B97F4A7C15);
    number = (number ^ number >> 30) * UINT64_C(0xBF58476D1CE4E5B9);
    number = (number ^ number >> 27) * UINT64_C(0x94D049BB133111EB);
    return number ^ number >> 31;
}

void random_fill(char *bytes, size_t length)
{
    monitor_enter();
    while (length > 0) {
        uint64_t number = next_number();
        size_t part = length < sizeof number ? length : sizeof number;
        memcpy(bytes, &number, part);
        bytes += part;
        length -= part;
    }
    monitor_leave();
}

int getentropy(void *bytes, size_t length)
{
    if (length > 256) {
        errno = EIO;
        return -1;
    }
    random_fill(bytes, length);
    return 0;
}

ssize_t getrandom(void *bytes, size_t length, unsigned flags)
{
    (void)flags;
    random_fill(bytes, length);
    return (ssize_t)length;
}
