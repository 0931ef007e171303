/* Pipes between threads, poll and select, and memory by mmap. */
#define _GNU_SOURCE
#include <errno.h>
#include <fcntl.h>
#include <limits.h>
#include <poll.h>
#include <pthread.h>
#include <signal.h>
#include <stdint.h>
#include <stdio.h>
#include <stdlib.h>
#include <string.h>
#include <sys/mman.h>
#include <sys/select.h>
#include <sys/uio.h>
#include <unistd.h>

static const char *name_of(int code)
{
    static const struct { int code; const char *name; } names[] = {
        {0, "done"}, {EBADF, "EBADF"}, {EINVAL, "EINVAL"}, {EAGAIN, "EAGAIN"}, {EPIPE, "EPIPE"}, {ESPIPE, "ESPIPE"},
    };
    for (size_t i = 0; i < sizeof names / sizeof *names; i++)
        if (names[i].code == code)
            return names[i].name;
    return "other";
}

#define SHOW(call) \
    do { \
        errno = 0; \
        long result = (long)(call); \
        printf("%s: %ld %s\n", #call, result < 0 ? -1 : result, result < 0 ? name_of(errno) : "done"); \
    } while (0)

enum {
    LONG = 200000
};

static void *sends(void *argument)
{
    int file = *(int *)argument;
    static char bytes[LONG];
    for (int i = 0; i < LONG; i++)
        bytes[i] = (char)(i * 7);
    ssize_t count = write(file, bytes, LONG);
    close(file);
    return (void *)(intptr_t)count;
}

static void long_pipe(void)
{
    int ends[2], all = 0, wrong = 0;
    char part[1000];
    ssize_t count;
    void *sent;
    pthread_t thread;
    pipe(ends);
    pthread_create(&thread, NULL, sends, &ends[1]);
    while ((count = read(ends[0], part, sizeof part)) > 0)
        for (int i = 0; i < count; i++, all++)
            wrong += part[i] != (char)(all * 7);
    pthread_join(thread, &sent);
    printf("received %d wrong %d sent %d\n", all, wrong, (int)(intptr_t)sent);
    close(ends[0]);
}

static void refused(void)
{
    int ends[2];
    char byte = 'x', bytes[PIPE_BUF];
    memset(bytes, 0, sizeof bytes);
    SHOW(pipe(ends));
    SHOW(lseek(ends[0], 0, SEEK_CUR));
    SHOW(write(ends[0], &byte, 1));
    SHOW(read(ends[1], &byte, 1));
    SHOW(fcntl(ends[0], F_SETFL, O_NONBLOCK));
    SHOW(read(ends[0], &byte, 1));
    SHOW(fcntl(ends[1], F_SETFL, O_NONBLOCK));
    int all = 0;
    ssize_t count;
    while ((count = write(ends[1], bytes, sizeof bytes)) > 0)
        all += (int)count;
    printf("full after %d: %s\n", all, name_of(errno));
    SHOW(write(ends[1], &byte, 1));
    close(ends[0]);
    signal(SIGPIPE, SIG_IGN);
    SHOW(write(ends[1], &byte, 1));
    close(ends[1]);
    SHOW(pipe2(ends, 1 << 30));
}

static int ends[2];

static void *later(void *argument)
{
    usleep(1000);
    write(ends[1], "later", 5);
    return argument;
}

static void show_poll(struct pollfd *all, int count, int time)
{
    int ready = poll(all, (nfds_t)count, time);
    printf("ready %d:", ready);
    for (int i = 0; i < count; i++)
        printf(" %s%s%s%s%s", all[i].revents & POLLIN ? "in" : "", all[i].revents & POLLOUT ? "out" : "",
               all[i].revents & POLLHUP ? "hup" : "", all[i].revents & POLLERR ? "err" : "",
               all[i].revents & POLLNVAL ? "nval" : "");
    puts("");
}

static void polls(void)
{
    char text[10];
    pthread_t thread;
    fd_set reading, writing;
    pipe(ends);
    struct pollfd all[2] = {{ends[0], POLLIN, 0}, {ends[1], POLLOUT, 0}};
    show_poll(all, 2, 0);
    show_poll(all, 1, 5);
    write(ends[1], "now", 3);
    show_poll(all, 2, -1);
    read(ends[0], text, sizeof text);
    pthread_create(&thread, NULL, later, NULL);
    show_poll(all, 1, -1);
    pthread_join(thread, NULL);
    FD_ZERO(&reading);
    FD_ZERO(&writing);
    FD_SET(ends[0], &reading);
    FD_SET(ends[1], &writing);
    struct timeval time = {0, 1000};
    SHOW(select(ends[1] + 1, &reading, &writing, NULL, &time));
    printf("%d %d\n", FD_ISSET(ends[0], &reading) != 0, FD_ISSET(ends[1], &writing) != 0);
    read(ends[0], text, sizeof text);
    FD_ZERO(&reading);
    FD_SET(ends[0], &reading);
    SHOW(select(ends[0] + 1, &reading, NULL, NULL, &time));
    printf("%d\n", FD_ISSET(ends[0], &reading) != 0);
    pthread_create(&thread, NULL, later, NULL);
    FD_SET(ends[0], &reading);
    SHOW(select(ends[0] + 1, &reading, NULL, NULL, NULL));
    pthread_join(thread, NULL);
    close(ends[1]);
    show_poll(all, 1, -1);
    read(ends[0], text, sizeof text);
    show_poll(all, 1, -1);
    all[1].fd = 70;
    show_poll(all, 2, 0);
    FD_SET(ends[0], &reading);
    close(ends[0]);
    SHOW(select(ends[0] + 1, &reading, NULL, NULL, NULL));
    int file = open("/dev/null", O_RDWR);
    struct pollfd null = {file, POLLIN | POLLOUT, 0};
    show_poll(&null, 1, 0);
    close(file);
}

static void parts(void)
{
    char one[3], other[10];
    struct iovec out[3] = {{"ab", 2}, {"", 0}, {"cdefg", 5}}, in[2] = {{one, 3}, {other, 10}};
    pipe(ends);
    SHOW(writev(ends[1], out, 3));
    SHOW(readv(ends[0], in, 2));
    printf("%.3s %.4s\n", one, other);
    close(ends[0]);
    close(ends[1]);
}

static void streams(void)
{
    char line[40];
    pipe(ends);
    FILE *out = fdopen(ends[1], "w"), *in = fdopen(ends[0], "r");
    fprintf(out, "through a pipe %d\n", 5);
    fclose(out);
    printf("%s", fgets(line, sizeof line, in));
    printf("end %d\n", fgets(line, sizeof line, in) == NULL && feof(in));
    fclose(in);
}

static void maps(void)
{
    enum { SIZE = 3 * 4096 };
    char *one = mmap(NULL, SIZE, PROT_READ | PROT_WRITE, MAP_PRIVATE | MAP_ANONYMOUS, -1, 0);
    printf("mapped %d zero %d\n", one != MAP_FAILED && (uintptr_t)one % 4096 == 0, one[0] | one[SIZE - 1]);
    memset(one, 1, SIZE);
    SHOW(munmap(one + 4096, 4096));
    one[0] = one[SIZE - 1] = 2;
    SHOW(munmap(one, 4096));
    SHOW(munmap(one + 8192, 4096));
    char *other = mmap(NULL, 100000, PROT_READ | PROT_WRITE, MAP_PRIVATE | MAP_ANONYMOUS, -1, 0);
    int sum = 0;
    for (int i = 0; i < 100000; i++)
        sum += other[i];
    printf("zeros again %d\n", sum);
    SHOW(munmap(other, 100000));
    SHOW(mmap(NULL, 0, PROT_READ, MAP_PRIVATE | MAP_ANONYMOUS, -1, 0) == MAP_FAILED);
    SHOW(munmap((char *)0x1001, 10));
    FILE *file = tmpfile();
    fprintf(file, "mapped file");
    fflush(file);
    char *text = mmap(NULL, 11, PROT_READ, MAP_PRIVATE, fileno(file), 0);
    printf("%s\n", text == MAP_FAILED ? "none" : text);
    munmap(text, 11);
    SHOW(mmap(NULL, 11, PROT_READ, MAP_PRIVATE, 90, 0) == MAP_FAILED);
    printf("%s\n", name_of(errno));
    fclose(file);
}

int main(void)
{
    long_pipe();
    refused();
    polls();
    parts();
    streams();
    maps();
    return 0;
}
