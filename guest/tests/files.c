/* Files: opening, reading, writing, places, names, and what is refused. */
#include <errno.h>
#include <fcntl.h>
#include <stdio.h>
#include <stdlib.h>
#include <string.h>
#include <sys/stat.h>
#include <unistd.h>

static const char *name_of(int code)
{
    static const struct { int code; const char *name; } names[] = {
        {0, "done"}, {ENOENT, "ENOENT"}, {EEXIST, "EEXIST"}, {EISDIR, "EISDIR"}, {ENOTDIR, "ENOTDIR"}, {EBADF, "EBADF"},
        {EINVAL, "EINVAL"}, {ENOTEMPTY, "ENOTEMPTY"}, {ESPIPE, "ESPIPE"}, {ENAMETOOLONG, "ENAMETOOLONG"}, {EBUSY, "EBUSY"},
        {EACCES, "EACCES"}, {EPERM, "EPERM"}, {EMFILE, "EMFILE"}, {ERANGE, "ERANGE"}, {ENOTTY, "ENOTTY"},
    };
    for (size_t i = 0; i < sizeof names / sizeof *names; i++)
        if (names[i].code == code)
            return names[i].name;
    return "other";
}

/* What a call came to, when it failed. */
#define SHOW(call) \
    do { \
        errno = 0; \
        long result = (long)(call); \
        printf("%s: %ld %s\n", #call, result < 0 ? -1 : result, result < 0 ? name_of(errno) : "done"); \
    } while (0)

static void contents(const char *path)
{
    char text[100];
    int file = open(path, O_RDONLY);
    ssize_t count = file < 0 ? -1 : read(file, text, sizeof text - 1);
    text[count < 0 ? 0 : count] = 0;
    printf("%s has %d bytes: %s\n", path, (int)count, text);
    close(file);
}

static void open_and_close(void)
{
    char long_name[300];
    memset(long_name, 'a', sizeof long_name);
    long_name[sizeof long_name - 1] = 0;
    SHOW(open("none", O_RDONLY));
    SHOW(open("none/file", O_RDWR | O_CREAT, 0644));
    SHOW(open("", O_RDONLY));
    SHOW(open(long_name, O_RDONLY));
    SHOW(open("one", O_WRONLY | O_CREAT | O_EXCL, 0640));
    SHOW(open("one", O_WRONLY | O_CREAT | O_EXCL, 0640));
    SHOW(open("one/file", O_RDONLY));
    SHOW(open("one/", O_RDONLY));
    SHOW(open(".", O_RDWR));
    SHOW(open("one", O_RDONLY | O_DIRECTORY));
    SHOW(close(3));
    SHOW(close(3));
    SHOW(close(-1));
    SHOW(read(3, long_name, 1));
    SHOW(write(77, long_name, 1));
    SHOW(isatty(77));
}

static void places(void)
{
    char text[20] = "";
    int file = open("two", O_RDWR | O_CREAT | O_TRUNC, 0600);
    SHOW(write(file, "0123456789", 10));
    SHOW(lseek(file, 2, SEEK_SET));
    SHOW(read(file, text, 3));
    printf("read %s\n", text);
    SHOW(lseek(file, 1, SEEK_CUR));
    SHOW(lseek(file, -2, SEEK_END));
    SHOW(lseek(file, -20, SEEK_CUR));
    SHOW(lseek(file, 0, 7));
    SHOW(read(file, text, 19));
    SHOW(read(file, text, 19));
    SHOW(pwrite(file, "XY", 2, 4));
    SHOW(pread(file, text, 4, 3));
    printf("pread %.4s\n", text);
    SHOW(lseek(file, 5, SEEK_END));
    SHOW(write(file, "end", 3));
    SHOW(lseek(file, 0, SEEK_END));
    SHOW(pread(file, text, 6, 10));
    printf("a hole of zeros: %d%d%d%d%d %c\n", text[0], text[1], text[2], text[3], text[4], text[5]);
    SHOW(ftruncate(file, 4));
    SHOW(ftruncate(file, 6));
    SHOW(pread(file, text, 10, 0));
    printf("cut and longer: %.4s %d%d\n", text, text[4], text[5]);
    SHOW(ftruncate(file, -1));
    close(file);
    file = open("two", O_WRONLY | O_APPEND);
    SHOW(write(file, "+", 1));
    SHOW(lseek(file, 0, SEEK_SET));
    SHOW(write(file, "+", 1));
    SHOW(read(file, text, 1));
    SHOW(lseek(file, 0, SEEK_CUR));
    close(file);
    SHOW(truncate("two", 2));
    contents("two");
    SHOW(truncate(".", 2));
    SHOW(truncate("none", 2));
}

static void names(void)
{
    struct stat status;
    int file = open("three", O_WRONLY | O_CREAT, 0644);
    SHOW(write(file, "three", 5));
    SHOW(rename("three", "four"));
    SHOW(rename("three", "four"));
    SHOW(rename("four", "four"));
    SHOW(write(file, "!", 1));
    contents("four");
    SHOW(link("four", "five"));
    SHOW(link("four", "five"));
    SHOW(link("none", "six"));
    SHOW(fstat(file, &status));
    printf("links %d size %d\n", (int)status.st_nlink, (int)status.st_size);
    SHOW(unlink("four"));
    SHOW(unlink("four"));
    contents("five");
    SHOW(rename("two", "five"));
    contents("five");
    SHOW(fstat(file, &status));
    printf("links %d\n", (int)status.st_nlink);
    SHOW(write(file, "more", 4));
    SHOW(close(file));
    SHOW(unlink("."));
    SHOW(unlink("five/"));
    SHOW(remove("five"));
    SHOW(remove("five"));
    SHOW(unlink("one"));
}

static void statuses(void)
{
    struct stat status;
    umask(027);
    close(open("file", O_WRONLY | O_CREAT, 0666));
    SHOW(stat("file", &status));
    printf("mode %o regular %d size %d\n", (unsigned)status.st_mode & 07777, S_ISREG(status.st_mode), (int)status.st_size);
    SHOW(chmod("file", 04711));
    SHOW(lstat("file", &status));
    printf("mode %o\n", (unsigned)status.st_mode & 07777);
    SHOW(stat("none", &status));
    SHOW(stat("file/x", &status));
    SHOW(fstat(99, &status));
    SHOW(access("file", X_OK));
    SHOW(access("none", F_OK));
    SHOW(chmod("none", 0));
    SHOW(stat("/dev/null", &status));
    printf("device %d\n", S_ISCHR(status.st_mode));
    SHOW(stat("/tmp", &status));
    printf("directory %d mode %o\n", S_ISDIR(status.st_mode), (unsigned)status.st_mode & 07777);
    SHOW(unlink("file"));
}

static void duplicates(void)
{
    char text[10] = "";
    int file = open("shared", O_RDWR | O_CREAT, 0600), other = dup(file);
    printf("descriptors %d %d\n", file, other);
    SHOW(write(file, "abcdef", 6));
    SHOW(lseek(other, 1, SEEK_SET));
    SHOW(read(file, text, 2));
    printf("read %s\n", text);
    SHOW(dup2(file, 9));
    SHOW(dup2(file, file));
    SHOW(dup2(50, 9));
    SHOW(dup2(file, -1));
    SHOW(dup(50));
    close(file);
    SHOW(lseek(9, 0, SEEK_CUR));
    SHOW(fcntl(9, F_DUPFD, 20));
    SHOW((fcntl(9, F_GETFL) & O_ACCMODE) == O_RDWR);
    SHOW(fcntl(9, F_GETFD));
    SHOW(fcntl(9, F_SETFD, FD_CLOEXEC));
    SHOW(fcntl(9, F_GETFD));
    SHOW(fcntl(9, F_SETFL, O_APPEND));
    SHOW((fcntl(other, F_GETFL) & O_APPEND) != 0);
    SHOW(fcntl(60, F_GETFL));
    close(9);
    close(20);
    close(other);
    SHOW(unlink("shared"));
}

static void devices(void)
{
    char text[8] = "1234567";
    int file = open("/dev/null", O_RDWR);
    SHOW(write(file, text, 7));
    SHOW(read(file, text, 7));
    close(file);
    file = open("/dev/zero", O_RDONLY);
    SHOW(read(file, text, 7));
    printf("zeros %d\n", text[0] | text[6]);
    close(file);
    file = open("/dev/urandom", O_RDONLY);
    SHOW(read(file, text, 7));
    close(file);
    fflush(stdout);
    file = open("/dev/stdout", O_WRONLY);
    SHOW(write(file, "by another descriptor\n", 22));
    close(file);
}

int main(void)
{
    char directory[] = "/tmp/filesXXXXXX";
    umask(022);
    if (!mkdtemp(directory) || chdir(directory) < 0)
        return 1;
    setvbuf(stdout, NULL, _IONBF, 0);
    open_and_close();
    places();
    names();
    statuses();
    duplicates();
    devices();
    chdir("/");
    SHOW(rmdir(directory));
    return 0;
}
