/* Directories: making, reading, removing and renaming them, and the working directory. */
#include <dirent.h>
#include <errno.h>
#include <fcntl.h>
#include <stdio.h>
#include <stdlib.h>
#include <string.h>
#include <sys/stat.h>
#include <unistd.h>

static const char *name_of(int code)
{
    static const struct { int code; const char *name; } names[] = {
        {0, "done"}, {ENOENT, "ENOENT"}, {EEXIST, "EEXIST"}, {EISDIR, "EISDIR"}, {ENOTDIR, "ENOTDIR"}, {EBADF, "EBADF"},
        {EINVAL, "EINVAL"}, {ENOTEMPTY, "ENOTEMPTY"}, {EBUSY, "EBUSY"}, {ERANGE, "ERANGE"},
    };
    for (size_t i = 0; i < sizeof names / sizeof *names; i++)
        if (names[i].code == code)
            return names[i].name;
    return "other";
}

#define SHOW(call) \
    do { \
        errno = 0; \
        long result = (long)(call); \
        printf("%s: %ld %s\n", #call, result < 0 ? -1 : result, result < 0 ? name_of(errno) : "done"); \
    } while (0)

static void make(const char *path)
{
    close(open(path, O_WRONLY | O_CREAT, 0600));
}

static void list(const char *path)
{
    struct dirent **names;
    int count = scandir(path, &names, NULL, alphasort);
    printf("%s:", path);
    for (int i = 0; i < count; i++) {
        printf(" %s%s", names[i]->d_name, names[i]->d_type == DT_DIR ? "/" : "");
        free(names[i]);
    }
    puts("");
    free(names);
}

static void here(const char *top)
{
    char path[200];
    printf("here: %s\n", getcwd(path, sizeof path) ? path + strlen(top) : name_of(errno));
}

static void walk(void)
{
    struct dirent *entry;
    DIR *directory = opendir("b");
    int count = 0, first = 0;
    long place = 0;
    while ((entry = readdir(directory))) {
        count++;
        if (count == 2)
            place = telldir(directory);
    }
    printf("entries %d\n", count);
    seekdir(directory, place);
    while (readdir(directory))
        first++;
    rewinddir(directory);
    printf("from the third on %d, descriptor %d, again %d\n", first, dirfd(directory) > 2, readdir(directory) != NULL);
    closedir(directory);
    SHOW(opendir("none") != NULL);
    printf("%s\n", name_of(errno));
    SHOW(opendir("b/file") != NULL);
    printf("%s\n", name_of(errno));
}

int main(void)
{
    char top[] = "/tmp/listsXXXXXX", path[200];
    if (!mkdtemp(top) || chdir(top) < 0)
        return 1;
    here(top);
    SHOW(mkdir("a", 0755));
    SHOW(mkdir("a", 0755));
    SHOW(mkdir("none/b", 0755));
    SHOW(mkdir("b/", 0755));
    SHOW(mkdir("a/x", 0700));
    make("b/file");
    make("b/other");
    SHOW(mkdir("b/file", 0700));
    SHOW(mkdir("b/file/x", 0700));
    SHOW(mkdir("/", 0700));
    SHOW(mkdir(".", 0700));
    list(".");
    list("a");
    list("b");
    walk();
    SHOW(chdir("a/x"));
    here(top);
    SHOW(chdir("../../b"));
    here(top);
    SHOW(chdir("file"));
    SHOW(chdir("none"));
    list("../a/.//x/..");
    SHOW(rmdir("../a"));
    SHOW(rmdir("../a/x/."));
    SHOW(rmdir("file"));
    SHOW(rmdir("none"));
    SHOW(rename("../a", "../a/x/y"));
    SHOW(rename("../a", "file"));
    SHOW(rename("file", "../a"));
    SHOW(rename("../a", "c"));
    SHOW(rename("c", "../b"));
    SHOW(rename(".", "../d"));
    list(".");
    SHOW(chdir("c/x"));
    here(top);
    SHOW(rename("../x", "../../y"));
    here(top);
    SHOW(rmdir("../y"));
    SHOW(getcwd(path, sizeof path) == NULL);
    printf("%s\n", name_of(errno));
    SHOW(open("new", O_CREAT | O_WRONLY, 0600));
    SHOW(chdir(top));
    SHOW(getcwd(path, 2) == NULL);
    printf("%s\n", name_of(errno));
    int file = open("b", O_RDONLY | O_DIRECTORY);
    SHOW(openat(file, "file", O_RDONLY));
    SHOW(openat(file, "none", O_RDONLY));
    SHOW(openat(99, "none", O_RDONLY));
    SHOW(mkdirat(file, "sub", 0700));
    SHOW(fchdir(file));
    list(".");
    SHOW(read(file, path, 10));
    SHOW(unlinkat(file, "sub", 0));
    SHOW(unlinkat(file, "sub", AT_REMOVEDIR));
    SHOW(unlink("file"));
    SHOW(unlink("other"));
    SHOW(rmdir("c"));
    SHOW(chdir("/"));
    strcpy(path, top);
    strcat(path, "/b");
    SHOW(rmdir(path));
    SHOW(rmdir(top));
    SHOW(chdir(top));
    return 0;
}
