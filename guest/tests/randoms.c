/* Random numbers as the BSDs and Rust's crate getrandom have them, and errno by its function. */
#include <errno.h>
#include <pthread.h>
#include <stdint.h>
#include <stdio.h>
#include <stdlib.h>
#include <string.h>

int *__errno(void);
uint32_t __getrandom_custom(unsigned char *bytes, size_t length);
uint32_t __getrandom_v03_custom(unsigned char *bytes, size_t length);

static int *elsewhere;
static uint32_t numbers[3];

static void *asks(void *argument)
{
    if (argument == numbers)
        elsewhere = __errno();
    *__errno() = 7;
    *(uint32_t *)argument = arc4random();
    return NULL;
}

static int differing_bytes(const unsigned char *bytes, int length)
{
    int differ = 0;
    for (int i = 1; i < length; i++)
        differ += bytes[i] != bytes[i - 1];
    return differ;
}

static void ask_as_rust(uint32_t ask(unsigned char *, size_t))
{
    unsigned char bytes[1000] = {0};
    unsigned code = ask(bytes + 1, 998);
    printf("code %u, bytes %d, ends %d %d\n", code, differing_bytes(bytes + 1, 998) > 900, bytes[0], bytes[999]);
}

int main(void)
{
    pthread_t threads[3];
    for (int i = 0; i < 3; i++)
        pthread_create(&threads[i], NULL, asks, &numbers[i]);
    for (int i = 0; i < 3; i++)
        pthread_join(threads[i], NULL);
    printf("three differ %d\n", numbers[0] != numbers[1] && numbers[1] != numbers[2] && numbers[0] != numbers[2]);
    errno = 3;
    printf("errno %d, of another thread %d\n", *__errno(), elsewhere != __errno());

    unsigned char bytes[1000] = {0};
    arc4random_buf(bytes + 1, 998);
    printf("bytes %d, ends %d %d\n", differing_bytes(bytes + 1, 998) > 900, bytes[0], bytes[999]);

    ask_as_rust(__getrandom_custom);
    ask_as_rust(__getrandom_v03_custom);

    int counts[3] = {0}, beyond = 0;
    for (int i = 0; i < 3000; i++)
        counts[arc4random_uniform(3)]++;
    for (int i = 0; i < 1000; i++)
        beyond += arc4random_uniform(UINT32_C(0x80000001)) > UINT32_C(0x80000000);
    printf("below 3: %d %d %d, beyond %d\n", counts[0] > 900, counts[1] > 900, counts[2] > 900, beyond);
    printf("below 1 and 0: %u %u\n", (unsigned)arc4random_uniform(1), (unsigned)arc4random_uniform(0));
    return 0;
}
