/* The signals of C: a program raises them itself, and one without a handler ends the run. */
#include <signal.h>
#include <stdio.h>
#include <unistd.h>

static void handle(int number)
{
    printf("handled %d\n", number == SIGINT);
}

int main(void)
{
    signal(SIGINT, handle);
    printf("raised %d\n", raise(SIGINT));
    printf("process %d\n", getpid() > 0);
    raise(SIGTERM);
    printf("not reached\n");
    return 0;
}
