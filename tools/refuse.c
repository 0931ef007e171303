/* A library to be loaded ahead of the C library's (LD_PRELOAD): it refuses requests for memory.
   REFUSE=N refuses the Nth request of the process, counted from 1; REFUSE_FROM=N that one and all after it.
   Where REQUESTS names a file, the number of requests and how many of them were refused are written there when
   the process ends. */
#define _GNU_SOURCE
#include <dlfcn.h>
#include <errno.h>
#include <stdio.h>
#include <stdlib.h>
#include <sys/syscall.h>
#include <unistd.h>

extern void *__libc_malloc(size_t);
extern void *__libc_calloc(size_t, size_t);
extern void *__libc_realloc(void *, size_t);
extern void *__libc_memalign(size_t, size_t);

static long requests, refusals, refused_one, refused_from;
static int counts;

static long number(const char *name)
{
    const char *text = getenv(name);
    return text ? atol(text) : 0;
}

__attribute__((constructor)) static void begin(void)
{
    refused_one = number("REFUSE");
    refused_from = number("REFUSE_FROM");
    counts = 1;
}

__attribute__((destructor)) static void end(void)
{
    const char *path = getenv("REQUESTS");
    counts = 0;
    if (path) {
        FILE *file = fopen(path, "w");
        if (file) {
            fprintf(file, "%ld %ld\n", requests, refusals);
            fclose(file);
        }
    }
}

/* A program that ends so runs no destructor. */
void _exit(int status)
{
    end();
    syscall(SYS_exit_group, status);
    __builtin_unreachable();
}

static int is_refused(void)
{
    if (!counts)
        return 0;
    long request = __sync_add_and_fetch(&requests, 1);
    int is_this = request == refused_one || (refused_from && request >= refused_from);
    if (is_this)
        __sync_add_and_fetch(&refusals, 1);
    return is_this;
}

#define UNLESS_REFUSED(call) do { if (is_refused()) { errno = ENOMEM; return 0; } return call; } while (0)

void *malloc(size_t size) { UNLESS_REFUSED(__libc_malloc(size)); }
void *calloc(size_t count, size_t size) { UNLESS_REFUSED(__libc_calloc(count, size)); }
void *realloc(void *old, size_t size) { UNLESS_REFUSED(__libc_realloc(old, size)); }
void *aligned_alloc(size_t align, size_t size) { UNLESS_REFUSED(__libc_memalign(align, size)); }

int posix_memalign(void **place, size_t align, size_t size)
{
    if (is_refused())
        return ENOMEM;
    void *made = __libc_memalign(align, size);
    if (!made)
        return ENOMEM;
    *place = made;
    return 0;
}
