/* realpath and glob over the files that there are, searches, addresses: what a Linux host gives. */
#define _GNU_SOURCE
#include <arpa/inet.h>
#include <errno.h>
#include <fcntl.h>
#include <glob.h>
#include <limits.h>
#include <search.h>
#include <stdio.h>
#include <stdlib.h>
#include <string.h>
#include <sys/stat.h>
#include <unistd.h>

static void make(const char *path)
{
    int file = open(path, O_CREAT | O_WRONLY, 0644);
    write(file, path, strlen(path));
    close(file);
}

static void show_path(const char *path)
{
    char resolved[PATH_MAX];
    char *text = realpath(path, resolved);
    printf("%s: %s\n", path, text ? text : strerror(errno) ? errno == ENOENT ? "ENOENT" : errno == ENOTDIR ? "ENOTDIR" : "ELOOP" : "");
}

static void show_glob(const char *pattern, int flags)
{
    glob_t found;
    int code = glob(pattern, flags, NULL, &found);
    printf("%s: %s", pattern, code == 0 ? "" : code == GLOB_NOMATCH ? "no match" : "?");
    for (size_t i = 0; code == 0 && i < found.gl_pathc; i++)
        printf(" %s", found.gl_pathv[i]);
    printf("\n");
    globfree(&found);
}

static int compare(const void *one, const void *other)
{
    return *(const int *)one - *(const int *)other;
}

static void addresses(void)
{
    struct in_addr address;
    char text[INET_ADDRSTRLEN];
    printf("%x %x %x %x\n", (unsigned)htonl(0x01020304), htons(0x0102), (unsigned)ntohl(1), ntohs(1));
    printf("%x %x\n", (unsigned)ntohl(inet_addr("127.0.0.1")), (unsigned)ntohl(inet_addr("1.2.300.4")));
    printf("%d", inet_aton("10.258", &address));
    printf(" %s\n", inet_ntoa(address));
    printf("%d%d%d\n", inet_pton(AF_INET, "1.2.3.4", &address), inet_pton(AF_INET, "1.2.3", &address), inet_pton(AF_INET, "1.2.3.4.", &address));
    address.s_addr = htonl(0xc0a80001);
    printf("%s\n", inet_ntop(AF_INET, &address, text, sizeof text));
}

int main(void)
{
    mkdir("/tmp/dthreads-paths", 0755);
    chdir("/tmp/dthreads-paths");
    mkdir("one", 0755);
    mkdir("one/two", 0755);
    make("one/b.c");
    make("one/a.c");
    make("one/a.h");
    make("one/.c");
    make("one/two/x.c");
    show_path("one/two/../a.c");
    show_path("/tmp/dthreads-paths//one/./two/");
    show_path("one/none");
    show_path("one/a.c/b");
    show_path("/");
    char *path = realpath(".", NULL);
    printf("%s\n", path);
    free(path);
    show_glob("one/*.c", 0);
    show_glob("*/*/*.c", 0);
    show_glob("one/*", GLOB_MARK);
    show_glob("one/[ab].[ch]", 0);
    show_glob("one/none*", 0);
    show_glob("one/none*", GLOB_NOCHECK);
    show_glob("one/a.c", 0);
    show_glob("/tmp/dthreads-paths/one/?.h", 0);
    show_glob("one/*.c", GLOB_PERIOD);
    int numbers[6] = {5, 3, 9}, key = 9, fresh = 4;
    size_t count = 3;
    printf("%d", (int)((int *)lfind(&key, numbers, &count, sizeof key, compare) - numbers));
    printf("%d", (int)((int *)lsearch(&fresh, numbers, &count, sizeof key, compare) - numbers));
    printf("%d\n", (int)count);
    addresses();
    return 0;
}
