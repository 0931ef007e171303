/* Signals within the process, with what a Linux host prints. */
#define _GNU_SOURCE
#include <errno.h>
#include <pthread.h>
#include <semaphore.h>
#include <setjmp.h>
#include <signal.h>
#include <stdio.h>
#include <stdlib.h>
#include <string.h>
#include <sys/time.h>
#include <time.h>
#include <unistd.h>

static volatile sig_atomic_t count, last;
static sem_t semaphore;
static sigjmp_buf place;

static void handler(int signal)
{
    count++;
    last = signal;
}

static void with_info(int signal, siginfo_t *info, void *context)
{
    (void)context;
    count++;
    last = signal * 100 + info->si_value.sival_int;
}

static void jumps(int signal)
{
    siglongjmp(place, signal);
}

static void install(int signal, void (*function)(int), int flags)
{
    struct sigaction action;
    memset(&action, 0, sizeof action);
    action.sa_handler = function;
    action.sa_flags = flags;
    sigemptyset(&action.sa_mask);
    sigaction(signal, &action, NULL);
}

static void sets(void)
{
    sigset_t set;
    sigfillset(&set);
    printf("%d", sigismember(&set, SIGUSR1));
    sigdelset(&set, SIGUSR1);
    printf("%d", sigismember(&set, SIGUSR1));
    sigemptyset(&set);
    sigaddset(&set, SIGTERM);
    printf("%d%d %d\n", sigismember(&set, SIGTERM), sigismember(&set, SIGINT), sigaddset(&set, 1000));
}

static void within_a_thread(void)
{
    sigset_t set, old;
    install(SIGUSR1, handler, 0);
    raise(SIGUSR1);
    printf("raised: %d of %d\n", count, last == SIGUSR1);
    sigemptyset(&set);
    sigaddset(&set, SIGUSR1);
    sigprocmask(SIG_BLOCK, &set, &old);
    kill(getpid(), SIGUSR1);
    sigpending(&set);
    printf("blocked: %d, pending %d\n", count, sigismember(&set, SIGUSR1));
    sigprocmask(SIG_SETMASK, &old, NULL);
    printf("unblocked: %d\n", count);
    signal(SIGUSR2, SIG_IGN);
    raise(SIGUSR2);
    raise(SIGCHLD);
    struct sigaction action;
    memset(&action, 0, sizeof action);
    action.sa_sigaction = with_info;
    action.sa_flags = SA_SIGINFO | SA_RESETHAND;
    sigaction(SIGUSR2, &action, NULL);
    sigqueue(getpid(), SIGUSR2, (union sigval){.sival_int = 7});
    printf("queued: %d\n", last == SIGUSR2 * 100 + 7);
    sigaction(SIGUSR2, NULL, &action);
    printf("reset: %d\n", action.sa_handler == SIG_DFL);
    install(SIGTERM, jumps, 0);
    int signal = sigsetjmp(place, 1);
    if (signal == 0)
        raise(SIGTERM);
    sigprocmask(SIG_SETMASK, NULL, &set);
    printf("jumped: %d, blocked %d\n", signal == SIGTERM, sigismember(&set, SIGTERM));
    printf("%s, %s\n", strsignal(SIGSEGV), strsignal(SIGUSR1));
}

static void *sleeps(void *argument)
{
    struct timespec time = {5, 0}, rest = {0, 0};
    (void)argument;
    sem_post(&semaphore);
    int code = nanosleep(&time, &rest);
    printf("slept: %s, rest %d\n", code == -1 && errno == EINTR ? "EINTR" : "?", rest.tv_sec == 4);
    sem_post(&semaphore);
    pause();
    printf("paused\n");
    sem_t never;
    sem_init(&never, 0, 0);
    sem_post(&semaphore);
    code = sem_wait(&never);
    printf("waited: %s\n", code == -1 && errno == EINTR ? "EINTR" : "?");
    return NULL;
}

static void between_threads(void)
{
    pthread_t thread;
    count = 0;
    pthread_create(&thread, NULL, sleeps, NULL);
    for (int i = 0; i < 3; i++) {
        sem_wait(&semaphore);
        usleep(20000);
        pthread_kill(thread, SIGUSR1);
    }
    pthread_join(thread, NULL);
    printf("handled: %d\n", count);
}

static void *takes(void *argument)
{
    sigset_t *set = argument;
    for (int i = 0; i < 2; i++) {
        int signal;
        sigwait(set, &signal);
        printf("took %s\n", signal == SIGHUP ? "SIGHUP" : "SIGINT");
    }
    return NULL;
}

static void waits(void)
{
    sigset_t set, all;
    pthread_t thread;
    int code;
    sigemptyset(&set);
    sigaddset(&set, SIGHUP);
    sigaddset(&set, SIGINT);
    pthread_sigmask(SIG_BLOCK, &set, NULL);
    pthread_create(&thread, NULL, takes, &set);
    usleep(10000);
    kill(getpid(), SIGHUP);
    usleep(10000);
    pthread_kill(thread, SIGINT);
    pthread_join(thread, NULL);
    code = sigtimedwait(&set, NULL, &(struct timespec){0, 1000000});
    printf("%s\n", code == -1 && errno == EAGAIN ? "EAGAIN" : "?");
    raise(SIGINT);
    siginfo_t info;
    printf("%d", sigwaitinfo(&set, &info) == SIGINT);
    printf("%d\n", info.si_signo == SIGINT);
    sigfillset(&all);
    sigdelset(&all, SIGUSR1);
    count = 0;
    pthread_sigmask(SIG_BLOCK, &all, NULL);
    sigaddset(&set, SIGUSR1);
    pthread_sigmask(SIG_BLOCK, &set, NULL);
    raise(SIGUSR1);
    sigsuspend(&all);
    printf("suspended: %d\n", count);
    sigemptyset(&set);
    pthread_sigmask(SIG_SETMASK, &set, NULL);
}

static void alarms(void)
{
    struct itimerval timer = {.it_value = {0, 20000}, .it_interval = {0, 10000}};
    install(SIGALRM, handler, 0);
    count = 0;
    alarm(1);
    printf("left: %u\n", alarm(1));
    printf("slept: %d\n", sleep(3) > 0);
    printf("rang: %d\n", count);
    setitimer(ITIMER_REAL, &timer, NULL);
    while (count < 4)
        pause();
    timer.it_value.tv_usec = timer.it_interval.tv_usec = 0;
    setitimer(ITIMER_REAL, &timer, NULL);
    printf("rang: %d\n", count);
}

static void aborts(int signal)
{
    printf("abort: %d\n", signal == SIGABRT);
    fflush(stdout);
}

int main(void)
{
    sem_init(&semaphore, 0, 0);
    sets();
    within_a_thread();
    between_threads();
    waits();
    alarms();
    signal(SIGABRT, aborts);
    abort();
}
