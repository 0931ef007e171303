/* Signals and reads and writes of pipes: they are interrupted, or go on; and a thread is cancelled in a handler that reads. */
#define _GNU_SOURCE
#include <errno.h>
#include <pthread.h>
#include <signal.h>
#include <stdio.h>
#include <string.h>
#include <unistd.h>

static int ends[2], others[2];
static volatile sig_atomic_t count, inside;
static char bytes[100000];
static unsigned left;

static void counts(int signal)
{
    (void)signal;
    count++;
}

static void writes(int signal)
{
    (void)signal;
    count++;
    write(ends[1], "y", 1);
}

static void leaves(void *number)
{
    left = left << 4 | (unsigned)(unsigned long)number;
}

static void reads(int signal)
{
    char byte;
    (void)signal;
    pthread_cleanup_push(leaves, (void *)1);
    inside = 1;
    read(others[0], &byte, 1);
    pthread_cleanup_pop(0);
}

static void *waits(void *argument)
{
    char byte;
    pthread_cleanup_push(leaves, (void *)2);
    read(ends[0], &byte, 1);
    pthread_cleanup_pop(0);
    return argument;
}

static void handle(void (*handler)(int), int flags)
{
    struct sigaction action = {.sa_handler = handler, .sa_flags = flags};
    sigaction(SIGALRM, &action, NULL);
    sigaction(SIGHUP, &action, NULL);
}

int main(void)
{
    char byte = 0;
    sigset_t one, other, both;
    sigemptyset(&one);
    printf("%d", sigisemptyset(&one));
    sigaddset(&one, SIGHUP);
    sigfillset(&other);
    sigandset(&both, &one, &other);
    printf(" %d", both == one);
    sigorset(&both, &one, &other);
    printf(" %d\n", both == other);
    pipe(ends);
    pipe(others);

    handle(counts, 0);
    alarm(1);
    int code = (int)read(ends[0], &byte, 1);
    printf("%d %d %d\n", code, errno == EINTR, count);

    handle(writes, SA_RESTART);
    alarm(1);
    code = (int)read(ends[0], &byte, 1);
    printf("%d %c %d\n", code, byte, count);

    handle(counts, 0);
    alarm(1);
    code = (int)write(others[1], bytes, sizeof bytes);
    printf("%d %d\n", code, count);
    alarm(1);
    code = (int)write(others[1], bytes, 1);
    printf("%d %d %d\n", code, errno == EINTR, count);
    for (int rest = 65536; rest > 0; rest -= code)
        code = (int)read(others[0], bytes, sizeof bytes);

    pthread_t thread;
    void *value;
    handle(reads, 0);
    pthread_create(&thread, NULL, waits, NULL);
    sleep(1);
    pthread_kill(thread, SIGHUP);
    while (!inside)
        sleep(1);
    pthread_cancel(thread);
    pthread_join(thread, &value);
    printf("%d %x\n", value == PTHREAD_CANCELED, left);
    return 0;
}
