/* Walks through directories, files that can't be made, and what is said of the file system, of users and groups. */
#include <errno.h>
#include <fcntl.h>
#include <ftw.h>
#include <grp.h>
#include <pwd.h>
#include <stdio.h>
#include <stdlib.h>
#include <string.h>
#include <sys/mman.h>
#include <sys/stat.h>
#include <sys/statvfs.h>
#include <sys/vfs.h>
#include <sysexits.h>
#include <time.h>
#include <unistd.h>
#include <values.h>
#include <wait.h>

static const char *const kinds[] = {"file", "directory", "unreadable", "unknown", "link", "left", "dangling"};

static void make(const char *path)
{
    close(open(path, O_WRONLY | O_CREAT, 0600));
}

static int show(const char *path, const struct stat *status, int kind, struct FTW *place)
{
    char here[100];
    printf("%s %s base %s level %d size %d in %s\n", kinds[kind], path, path + place->base, place->level,
           S_ISREG(status->st_mode) ? (int)status->st_size : -1, getcwd(here, sizeof here));
    return 0;
}

static int plain(const char *path, const struct stat *status, int kind)
{
    (void)status;
    printf("%s %s\n", kinds[kind], path);
    return strcmp(path, "/walk/b/d") == 0 ? 7 : 0;
}

static int skip(const char *path, const struct stat *status, int kind, struct FTW *place)
{
    (void)status;
    (void)place;
    printf("%s %s\n", kinds[kind], path);
    return strcmp(path, "/walk/b") == 0 ? FTW_SKIP_SUBTREE : strcmp(path, "/walk/c") == 0 ? FTW_STOP : FTW_CONTINUE;
}

static int drop(const char *path, const struct stat *status, int kind, struct FTW *place)
{
    (void)status;
    (void)place;
    return kind == FTW_DP ? rmdir(path) : unlink(path);
}

static const char *error(int code)
{
    return code == 0 ? "done" : errno == EPERM ? "EPERM" : errno == EEXIST ? "EEXIST" : errno == ENOENT ? "ENOENT" : "other";
}

int main(void)
{
    mkdir("/walk", 0700);
    make("/walk/a");
    mkdir("/walk/b", 0700);
    make("/walk/b/d");
    make("/walk/b/e");
    make("/walk/c");
    printf("%d\n", nftw("/walk", show, 4, FTW_PHYS));
    chdir("/walk");
    printf("%d\n", nftw(".", show, 4, FTW_PHYS | FTW_DEPTH | FTW_CHDIR));
    chdir("/");
    printf("%d\n", ftw("/walk", plain, 4));
    printf("%d\n", nftw("/walk", skip, 4, FTW_ACTIONRETVAL) == FTW_STOP);
    printf("%d", nftw("/walk", drop, 4, FTW_DEPTH | FTW_PHYS));
    printf(" %s\n", error(nftw("/walk", drop, 4, 0)));

    printf("%s", error(mkfifo("/pipe", 0600)));
    printf(" %s", error(mknod("/device", S_IFCHR | 0600, 5)));
    printf(" %s", error(mknod("/file", S_IFREG | 0600, 0)));
    printf(" %s\n", error(mknod("/file", 0600, 0)));

    struct statvfs volume;
    struct statfs other;
    printf("%s %d %d %d", error(statvfs("/tmp", &volume)), (int)volume.f_frsize, (int)(volume.f_blocks * volume.f_frsize >> 20), volume.f_bavail <= volume.f_bfree);
    printf(" %s %d %d", error(fstatfs(0, &other)), other.f_blocks == volume.f_blocks, (int)other.f_namelen);
    printf(" %s\n", error(statvfs("/none", &volume)));

    int users = 0, groups = 0;
    struct group room, *found;
    while (getpwent())
        users++;
    setgrent();
    while (getgrent())
        groups++;
    printf("%d %d %d", users, groups, getgrgid_r(0, &room, NULL, 0, &found));
    printf(" %s %d\n", found->gr_name, getgrnam_r("other", &room, NULL, 0, &found) || found);

    struct timespec now = {0, 0};
    printf("%s", error(clock_settime(CLOCK_REALTIME, &now)));
    printf(" %s", error(chroot("/tmp")));
    printf(" %s", error(mlockall(MCL_CURRENT)));
    printf(" %s", error(setreuid(0, 0)));
    printf(" %s\n", error(setreuid(5, 5)));
    printf("%d %d %d\n", EX_USAGE, MAXINT == 2147483647, WEXITSTATUS(0x700));
    return 0;
}
