/* A program whose own names are those of parts of the library, or of functions that it doesn't use. */
#include <pthread.h>
#include <stdio.h>
#define index strings_index
#include <string.h>
#undef index

pthread_t threads[4];
int monitor, own, shared, line, input, cache, times = 3;
/* Beside parts of the library that have functions of these names, too. */
int index, daemon, sysinfo, syscall, secure_getenv;
int fork(void);
int getuid(void);

int pause(int number)
{
    return number;
}

int write(int number)
{
    return number;
}

int err(int number)
{
    return number;
}

int mutex_acquire(int number)
{
    return number;
}

static void *run(void *argument)
{
    return argument;
}

int main(void)
{
    for (int i = 0; i < 4; i++)
        pthread_create(&threads[i], NULL, run, NULL);
    for (int i = 0; i < 4; i++)
        pthread_join(threads[i], NULL);
    if (fork() != -1 || getuid() != 0 || strlen("text") != 4)
        return 1;
    index = daemon = sysinfo = syscall = secure_getenv = 0;
    monitor = own = shared = line = input = cache = 1;
    printf("%d\n", monitor + own + shared + line + input + cache + times + pause(1) + write(1) + err(1) + mutex_acquire(1));
    return 0;
}
