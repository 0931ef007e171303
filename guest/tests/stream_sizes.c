/* A size and a count whose product is too large, and the lock of a stream that the thread doesn't hold. */
#include <pthread.h>
#include <stdio.h>
#include <unistd.h>

static void *prints(void *argument)
{
    flockfile(stdout);
    printf("first\n");
    usleep(2000);
    printf("second\n");
    funlockfile(stdout);
    return argument;
}

static void *comes_between(void *argument)
{
    funlockfile(stdout);
    printf("third\n");
    return argument;
}

int main(void)
{
    static char bytes[8];
    pthread_t one, other;
    volatile size_t half = (size_t)1 << (sizeof(size_t) * 8 - 1);
    size_t got = fread(bytes, half, 2, stdin);
    printf("%zu %c%c%c\n", got, bytes[0], bytes[1], bytes[2]);
    funlockfile(stdout);
    pthread_create(&one, NULL, prints, NULL);
    usleep(1000);
    pthread_create(&other, NULL, comes_between, NULL);
    pthread_join(one, NULL);
    pthread_join(other, NULL);
    fflush(stdout);
    got = fwrite(bytes, half, 2, stderr);
    printf("%zu\n", got);
    return 0;
}
