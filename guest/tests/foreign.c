/* What programs for Linux name on ways that they rarely take: it is there, and what can't work says ENOSYS. */
#define _GNU_SOURCE
#include <assert.h>
#include <errno.h>
#include <fcntl.h>
#include <mntent.h>
#include <netdb.h>
#include <netinet/tcp.h>
#include <pthread.h>
#include <signal.h>
#include <spawn.h>
#include <stdio.h>
#include <stdio_ext.h>
#include <stdlib.h>
#include <string.h>
#include <stropts.h>
#include <sys/auxv.h>
#include <sys/resource.h>
#include <sys/syscall.h>
#include <sys/sysinfo.h>
#include <sys/sysmacros.h>
#include <sys/types.h>
#include <sys/un.h>
#include <sys/wait.h>
#include <termios.h>
#include <unistd.h>

/* Names that the C library has beyond POSIX and GNU are the program's. */
char *strlwr(char *text)
{
    text[0] = '!';
    return text;
}

static __thread int by_address __attribute__((tls_model("global-dynamic"))) = 5;
static __thread int by_table __attribute__((tls_model("initial-exec"))) = 6;

/* The call answered -1, or its kin, and ENOSYS. */
static void refused(int is_refused, const char *name)
{
    if (!is_refused || errno != ENOSYS)
        printf("%s: errno %d\n", name, errno);
    errno = 0;
}

static void test_processes(void)
{
    char *const words[] = {"true", NULL};
    pid_t process;
    refused(fork() == -1, "fork");
    refused(vfork() == -1, "vfork");
    refused(execvp("true", words) == -1, "execvp");
    refused(execl("/bin/true", "true", (char *)NULL) == -1, "execl");
    refused(waitpid(-1, NULL, WNOHANG) == -1, "waitpid");
    refused(wait(NULL) == -1, "wait");
    refused(daemon(0, 0) == -1, "daemon");
    refused(syscall(1, 2, 3) == -1, "syscall");
    refused(setmntent(MOUNTED, "r") == NULL, "setmntent");
    refused(getmntent(NULL) == NULL, "getmntent");
    refused(gethostbyname("host") == NULL, "gethostbyname");
    assert(posix_spawnp(&process, "true", NULL, NULL, words, NULL) == ENOSYS);
    struct addrinfo *found;
    refused(getaddrinfo("host", "80", NULL, &found) == EAI_SYSTEM, "getaddrinfo");
    assert(pthread_atfork(NULL, NULL, NULL) == 0);
}

static void test_stream_state(void)
{
    FILE *file = fopen("/tmp/state", "w+");
    assert(__freadable(file) && __fwritable(file) && !__flbf(file) && __fpending(file) == 0);
    assert(fputs_unlocked("twelve bytes", file) >= 0 && __fpending(file) == 12 && __fwriting(file) && !__freading(file));
    putc_unlocked('!', file);
    assert(__fpending(file) == 13 && __fbufsize(file) >= 13);
    rewind(file);
    assert(getc_unlocked(file) == 't' && __freading(file) && !__fwriting(file));
    size_t length;
    assert(__freadahead(file) == 12 && memcmp(__freadptr(file, &length), "welve", 5) == 0 && length == 12);
    __freadptrinc(file, 6);
    assert(getc(file) == 'b' && __freadahead(file) == 5);
    assert(ungetc('?', file) == '?' && __freadahead(file) == 6 && !__freadptr(file, &length));
    __fpurge(file);
    assert(!ferror_unlocked(file));
    __fseterr(file);
    assert(ferror_unlocked(file) && !feof_unlocked(file));
    clearerr_unlocked(file);
    assert(!ferror(file) && fileno_unlocked(file) == fileno(file) && fflush_unlocked(file) == 0);
    fclose(file);
    int (*put)(int, FILE *) = putc_unlocked;
    size_t (*write_all)(const void *restrict, size_t, size_t, FILE *restrict) = fwrite_unlocked;
    write_all("through a pointer", 1, 17, stdout);
    put('\n', stdout);
}

static void test_process_state(void)
{
    struct rusage usage;
    struct sysinfo information;
    free(malloc(100000));
    assert(getrusage(RUSAGE_SELF, &usage) == 0 && usage.ru_maxrss > 0);
    assert(sysinfo(&information) == 0 && information.procs == 1 && information.totalram >= information.freeram);
    assert(secure_getenv("NOT_THERE") == NULL && getauxval(1000) == 0 && errno == ENOENT);
    assert(getauxval(AT_PAGESZ) == 4096 && (long)getauxval(AT_CLKTCK) == sysconf(_SC_CLK_TCK) && getauxval(AT_SECURE) == 0);
    assert(major(makedev(8, 3)) == 8 && minor(makedev(8, 3)) == 3);
    fclose(fopen("/tmp/before", "w"));
    assert(renameat(AT_FDCWD, "/tmp/before", AT_FDCWD, "/tmp/behind") == 0 && access("/tmp/behind", F_OK) == 0);
    struct sockaddr_un address = {.sun_family = AF_UNIX};
    assert(sizeof address.sun_path == 108);
}

int main(void)
{
    char text[] = "text";
    static const int codes[] = {ILL_ILLOPC, FPE_INTDIV, SEGV_MAPERR, BUS_ADRALN, CLD_EXITED, POLL_IN, CSIZE | CREAD | IXOFF, B115200, TCP_NODELAY};
    assert(codes[0] == 1 && strlwr(text)[0] == '!');
    by_address++;
    by_table++;
    assert(by_address == 6 && by_table == 7);
    test_processes();
    test_stream_state();
    test_process_state();
    printf("foreign\n");
    return 0;
}
