/* A signal ends poll and select, and SIGPIPE comes from a pipe that nobody reads. */
#include <errno.h>
#include <poll.h>
#include <signal.h>
#include <stdio.h>
#include <sys/select.h>
#include <unistd.h>

static volatile sig_atomic_t count;

static void handler(int signal)
{
    (void)signal;
    count++;
}

int main(void)
{
    int ends[2];
    char byte = 'x';
    fd_set set;
    pipe(ends);
    struct pollfd one = {.fd = ends[0], .events = POLLIN};
    signal(SIGALRM, handler);
    signal(SIGPIPE, handler);
    alarm(1);
    int code = poll(&one, 1, -1);
    printf("%d %d %d\n", code, errno == EINTR, count);
    FD_ZERO(&set);
    FD_SET(ends[0], &set);
    alarm(1);
    code = select(ends[0] + 1, &set, NULL, NULL, NULL);
    printf("%d %d %d\n", code, errno == EINTR, count);
    write(ends[1], &byte, 1);
    printf("%d\n", poll(&one, 1, 1000));
    close(ends[0]);
    code = (int)write(ends[1], &byte, 1);
    printf("%d %d %d\n", code, errno == EPIPE, count);
    return 0;
}
