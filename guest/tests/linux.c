/* What programs for Linux ask of it beyond POSIX. */
#define _GNU_SOURCE
#include <errno.h>
#include <execinfo.h>
#include <fcntl.h>
#include <libintl.h>
#include <nl_types.h>
#include <pthread.h>
#include <sched.h>
#include <signal.h>
#include <stdio.h>
#include <stdlib.h>
#include <string.h>
#include <sys/mman.h>
#include <sys/prctl.h>
#include <sys/sendfile.h>
#include <sys/syscall.h>
#include <sys/uio.h>
#include <tgmath.h>
#include <time.h>
#include <unistd.h>

static int came;

static void handler(int number)
{
    came = number;
}

static void *thread_of(void *number)
{
    *(pid_t *)number = gettid();
    return NULL;
}

static void threads(void)
{
    char name[16];
    pid_t number = 0;
    pthread_t thread;
    signal(SIGUSR1, handler);
    pthread_create(&thread, NULL, thread_of, &number);
    pthread_join(thread, NULL);
    printf("threads %d %d %d %ld\n", gettid() == getpid(), number == getpid(), number > 0, syscall(SYS_gettid));
    prctl(PR_SET_NAME, "a name that is too long");
    prctl(PR_GET_NAME, name);
    printf("%s %d\n", name, prctl(-1) < 0 && errno == EINVAL);
    printf("tgkill %d ", tgkill(getpid(), gettid(), SIGUSR1));
    printf("%d %d\n", came, tgkill(1, 200, SIGUSR1) < 0 && errno == ESRCH);
    printf("syscall %ld %d\n", syscall(SYS_getpid), syscall(5000) < 0 && errno == ENOSYS);
    int old = sigblock(sigmask(SIGUSR2));
    printf("masks %d %d\n", old, sigsetmask(old) == sigmask(SIGUSR2));
}

static void clocks(void)
{
    static const clockid_t all[] = {CLOCK_REALTIME_COARSE, CLOCK_MONOTONIC_RAW, CLOCK_MONOTONIC_COARSE, CLOCK_BOOTTIME};
    struct timespec time;
    for (int i = 0; i < 4; i++)
        if (clock_gettime(all[i], &time) == 0)
            printf("%d ", time.tv_sec > 900000000);
    printf("%d\n", clock_gettime(20, &time) < 0 && errno == EINVAL);
}

static void memory(void)
{
    char *first = mmap(NULL, 8192, PROT_READ | PROT_WRITE, MAP_PRIVATE | MAP_ANONYMOUS, -1, 0);
    strcpy(first, "kept");
    first[8191] = 1;
    char *larger = mremap(first, 8192, 40960, MREMAP_MAYMOVE);
    printf("%s %d %d ", larger, larger[8191], larger[8192] + larger[40959]);
    char *smaller = mremap(larger, 40960, 4096, 0);
    printf("%s %d\n", smaller, smaller == larger && mremap(smaller, 4096, 8192, 0) == MAP_FAILED && errno == ENOMEM);
}

static void files(void)
{
    int one = open("/tmp/one", O_RDWR | O_CREAT, 0600), other = open("/tmp/other", O_RDWR | O_CREAT, 0600);
    struct iovec parts[] = {{"abc", 3}, {"defg", 4}};
    char text[20] = "";
    off_t first = 6, second = 10;
    printf("%d ", (int)pwritev(one, parts, 2, 5));
    printf("%d ", (int)sendfile(other, one, &first, 100));
    printf("%d %d ", (int)first, (int)lseek64(other, 0, SEEK_END));
    first = 5;
    printf("%d ", (int)copy_file_range(one, &first, other, &second, 3, 0));
    parts[0] = (struct iovec){text, 3};
    parts[1] = (struct iovec){text + 4, 4};
    printf("%d ", (int)preadv(other, parts, 2, 0));
    printf("%s %s ", text, text + 4);
    printf("%d ", fallocate(one, 0, 0, 50));
    printf("%d ", (int)lseek(one, 0, SEEK_END));
    close_range((unsigned)one, (unsigned)other, 0);
    printf("%d\n", close(one) < 0 && close(other) < 0 && errno == EBADF);
}

static void texts(void)
{
    printf("%s %s %s %s\n", gettext("one"), ngettext("one", "many", 2), textdomain(NULL), bindtextdomain("domain", "/tmp"));
    printf("%d %s\n", catopen("none", 0) == (nl_catd)-1, catgets((nl_catd)-1, 1, 1, "own"));
    printf("%d %s\n", backtrace((void *[1]){NULL}, 1), backtrace_symbols((void *[1]){(void *)16}, 1)[0]);
    setenv("NAME", "value", 1);
    clearenv();
    printf("%d\n", getenv("NAME") == NULL);
}

static void types(void)
{
    float small = 2;
    double large = 2;
    double complex both = 2;
    int power;
    cpu_set_t one, other;
    printf("%d %d %d %d\n", (int)sizeof sqrt(small), (int)sizeof sqrt(large), (int)sizeof sqrt(both), (int)sizeof sqrt(4));
    printf("%d %d %d %d\n", (int)sizeof fabs(both), (int)sizeof atan2(small, large), (int)sizeof frexp(small, &power), (int)pow(small, 3));
    CPU_ZERO(&one);
    CPU_SET(3, &one);
    CPU_ZERO(&other);
    CPU_SET(40, &other);
    CPU_OR(&other, &one, &other);
    printf("%d %d\n", CPU_COUNT(&other), CPU_EQUAL(&one, &other));
}

int main(void)
{
    threads();
    clocks();
    memory();
    files();
    texts();
    types();
    return 0;
}
