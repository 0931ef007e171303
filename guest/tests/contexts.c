/* Contexts: one that yields numbers, arguments in registers and on the stack, what follows an end, and a context that another thread
 * goes on with. */
#include <dlfcn.h>
#include <pthread.h>
#include <signal.h>
#include <stdio.h>
#include <stdlib.h>
#include <sys/mman.h>
#include <ucontext.h>

enum { STACK = 32768 };

static ucontext_t here, there, last;
static int number, sum;

static void *stack(void)
{
    return mmap(NULL, STACK, PROT_READ | PROT_WRITE, MAP_PRIVATE | MAP_ANONYMOUS, -1, 0);
}

static void make(ucontext_t *context, ucontext_t *next)
{
    getcontext(context);
    context->uc_stack.ss_sp = stack();
    context->uc_stack.ss_size = STACK;
    context->uc_link = next;
}

static void yields(int from, int to)
{
    for (int i = from; i < to; i++) {
        number = i;
        swapcontext(&there, &here);
    }
    number = -1;
}

static void many(int a, int b, int c, int d, int e, int f, int g, int h, int i, int j)
{
    double half = (double)a / 2;
    printf("%d %d %d %d %d %d %d %d %d %d %.1f\n", a, b, c, d, e, f, g, h, i, j, half);
}

static void ends(void)
{
    printf("the last one\n");
}

static void *goes_on(void *unused)
{
    (void)unused;
    while (number >= 0) {
        swapcontext(&here, &there);
        if (number >= 0)
            sum += number;
    }
    return NULL;
}

static void *leaves(void *unused)
{
    (void)unused;
    make(&last, NULL);
    makecontext(&last, ends, 0);
    setcontext(&last);
    return NULL;
}

int main(void)
{
    volatile int passes = 0;
    getcontext(&here);
    passes++;
    if (passes < 3)
        setcontext(&here);
    printf("%d passes\n", passes);

    make(&there, &here);
    makecontext(&there, (void (*)(void))yields, 2, 3, 6);
    for (;;) {
        swapcontext(&here, &there);
        if (number < 0)
            break;
        printf("%d\n", number);
    }

    make(&there, &here);
    makecontext(&there, (void (*)(void))many, 10, 1, 2, 3, 4, 5, 6, 7, 8, 9, 10);
    swapcontext(&here, &there);

    /* The mask is a context's own. */
    sigset_t mask, old;
    sigemptyset(&mask);
    sigaddset(&mask, SIGUSR1);
    getcontext(&here);
    passes++;
    sigprocmask(SIG_BLOCK, NULL, &old);
    printf("%d blocked\n", sigismember(&old, SIGUSR1));
    if (passes < 5) {
        sigprocmask(SIG_BLOCK, &mask, NULL);
        setcontext(&here);
    }

    make(&there, &here);
    makecontext(&there, (void (*)(void))yields, 2, 10, 15);
    number = 0;
    swapcontext(&here, &there);
    sum = number;
    pthread_t thread;
    pthread_create(&thread, NULL, goes_on, NULL);
    pthread_join(thread, NULL);
    printf("sum %d\n", sum);

    pthread_create(&thread, NULL, leaves, NULL);
    pthread_join(thread, NULL);
    Dl_info information;
    printf("%d\n", dladdr(&here, &information));
    return 0;
}
