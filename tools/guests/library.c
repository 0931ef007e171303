// The program by which tools/dt measure library counts the instructions of an operation: it does OPERATION TIMES times.
#include <math.h>
#include <pthread.h>
#include <semaphore.h>
#include <stdio.h>
#include <stdlib.h>
#include <string.h>
#include <unistd.h>

/* How many threads wait beside the operation, and whether it needs files. */
#ifndef THREADS
#define THREADS 0
#endif
#ifndef FILES
#define FILES 0
#endif

enum { ROOM = 4096 + 64, STREAM = 1 << 20 };

static _Alignas(64) char from[ROOM], to[ROOM], text[1001], other[1001];
static volatile double first = 1.7320508075688772, second = -0.0031415926535897931, result;
static volatile float single = 1.7320508f, small = -0.0031415927f, single_result;
static volatile int sink;
static FILE *volatile input, *volatile output;
static sem_t never;

static void *waits(void *argument)
{
    sem_wait(&never);
    return argument;
}

static void create(int count)
{
    pthread_t thread;
    sem_init(&never, 0, 0);
    for (int i = 0; i < count; i++)
        pthread_create(&thread, NULL, waits, NULL);
}

/* A file of a MiB to read from, and one to write to; the first byte of each is done. */
static void open_files(void)
{
    static char bytes[4096];
    FILE *file = fopen("/tmp/input", "w");
    for (int i = 0; i < STREAM; i += (int)sizeof bytes)
        fwrite(bytes, 1, sizeof bytes, file);
    fclose(file);
    input = fopen("/tmp/input", "r");
    output = fopen("/tmp/output", "w");
    sink = getc(input);
    putc(sink, output);
}

int main(void)
{
    memset(text, 'a', sizeof text - 1);
    memset(other, 'a', sizeof other - 1);
    create(THREADS);
    if (FILES)
        open_files();
    FILE *in = input, *out = output;
    for (int i = 0; i < TIMES; i++) {
        OPERATION
        __asm__ volatile("");
    }
    (void)sink;
    (void)in;
    (void)out;
    /* What is in the buffers isn't a part of the operations. */
    _exit(0);
}
