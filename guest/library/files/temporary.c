/* Temporary files, with names that follow from the run's seed. */
#include <stdio.h>
#include <stdlib.h>
#include <unistd.h>
#include "files.h"

enum {
    PATTERN = 6,
    TRIES = 1000
};

/* Puts letters into the pattern's place. */
static void vary(char *pattern)
{
    static const char letters[] = "abcdefghijklmnopqrstuvwxyzABCDEFGHIJKLMNOPQRSTUVWXYZ0123456789";
    unsigned char numbers[PATTERN];
    random_fill((char *)numbers, sizeof numbers);
    for (int i = 0; i < PATTERN; i++)
        pattern[i] = letters[numbers[i] % (sizeof letters - 1)];
}

/* The place of the six X before so many bytes of a suffix, or NULL. */
static char *pattern_of(char *path, int suffix)
{
    size_t length = strlen(path);
    if (suffix < 0 || length < (size_t)suffix + PATTERN)
        return NULL;
    char *pattern = path + length - (size_t)suffix - PATTERN;
    return memcmp(pattern, "XXXXXX", PATTERN) == 0 ? pattern : NULL;
}

static int refuse(int code)
{
    errno = code;
    return -1;
}

int mkostemps(char *path, int suffix, int flags)
{
    char *pattern = pattern_of(path, suffix);
    int descriptor = refuse(EEXIST);
    if (!pattern)
        return refuse(EINVAL);
    for (int i = 0; i < TRIES && descriptor < 0 && errno == EEXIST; i++) {
        vary(pattern);
        descriptor = open(path, flags | O_RDWR | O_CREAT | O_EXCL, 0600);
    }
    return descriptor;
}

int mkstemps(char *path, int suffix)
{
    return mkostemps(path, suffix, 0);
}

int mkostemp(char *path, int flags)
{
    return mkostemps(path, 0, flags);
}

int mkstemp(char *path)
{
    return mkostemps(path, 0, 0);
}

char *mkdtemp(char *path)
{
    char *pattern = pattern_of(path, 0);
    int code = refuse(pattern ? EEXIST : EINVAL);
    for (int i = 0; pattern && i < TRIES && code < 0 && errno == EEXIST; i++) {
        vary(pattern);
        code = mkdir(path, 0700);
    }
    return code < 0 ? NULL : path;
}

/* A path that no file has: an empty one if there is none. */
static char *free_path(char *path)
{
    char *pattern = pattern_of(path, 0);
    bool is_free = false;
    for (int i = 0; pattern && i < TRIES && !is_free; i++) {
        vary(pattern);
        is_free = access(path, F_OK) < 0 && errno == ENOENT;
    }
    if (!is_free)
        *path = 0;
    return path;
}

char *mktemp(char *path)
{
    return free_path(path);
}

char *tmpnam(char *path)
{
    static char own_path[L_tmpnam];
    path = path ? path : own_path;
    strcpy(path, "/tmp/XXXXXX");
    return *free_path(path) ? path : NULL;
}

char *tempnam(const char *directory, const char *prefix)
{
    char *path;
    if (asprintf(&path, "%s/%.5sXXXXXX", directory ? directory : "/tmp", prefix ? prefix : "") < 0)
        return NULL;
    return free_path(path);
}

FILE *tmpfile(void)
{
    char path[] = "/tmp/XXXXXX";
    int descriptor = mkstemp(path);
    if (descriptor < 0)
        return NULL;
    unlink(path);
    FILE *stream = fdopen(descriptor, "w+");
    if (!stream)
        close(descriptor);
    return stream;
}
