/* Symbolic links: made, read, followed and not followed. */
#include <errno.h>
#include <fcntl.h>
#include <limits.h>
#include <stdio.h>
#include <stdlib.h>
#include <string.h>
#include <sys/stat.h>
#include <unistd.h>

static const char *name_of(int error)
{
    switch (error) {
    case EEXIST:
        return "EEXIST";
    case EINVAL:
        return "EINVAL";
    case ELOOP:
        return "ELOOP";
    case ENOENT:
        return "ENOENT";
    case ENOTDIR:
        return "ENOTDIR";
    default:
        return "another error";
    }
}

static void tell(const char *what, long code)
{
    printf("%s: %s\n", what, code < 0 ? name_of(errno) : "done");
}

static void put(const char *path, const char *text)
{
    FILE *file = fopen(path, "w");
    if (!file || fputs(text, file) < 0 || fclose(file) != 0)
        tell(path, -1);
}

static void show(const char *path)
{
    char text[40] = "";
    FILE *file = fopen(path, "r");
    if (!file) {
        tell(path, -1);
        return;
    }
    printf("%s: %s\n", path, fgets(text, sizeof text, file) ? text : "empty");
    fclose(file);
}

static void show_target(const char *path)
{
    char text[5] = "----";
    long length = readlink(path, text, 4);
    if (length < 0)
        tell(path, length);
    else
        printf("%s: %ld of its target, %s\n", path, length, text);
}

static void show_kind(const char *path)
{
    struct stat own, behind;
    int code = lstat(path, &own), other = stat(path, &behind);
    printf("%s: %d %d", path, code, other);
    if (code == 0)
        printf(", link %d of %ld bytes", S_ISLNK(own.st_mode), S_ISLNK(own.st_mode) ? (long)own.st_size : 0);
    printf(", directory %d\n", other == 0 && S_ISDIR(behind.st_mode));
}

static void make(void)
{
    mkdir("folder", 0755);
    mkdir("folder/below", 0755);
    put("folder/file", "text");
    tell("to a file", symlink("folder/file", "one"));
    tell("to a folder", symlink("folder", "two"));
    tell("upwards", symlink("../file", "folder/below/up"));
    tell("to a link", symlink("two/below/up", "three"));
    tell("to nothing", symlink("new", "dangling"));
    tell("to itself", symlink("loop", "loop"));
    tell("a name that is there", symlink("folder", "one"));
    tell("an empty target", symlink("", "four"));
    tell("no folder", symlink("one", "none/four"));
}

static void look(void)
{
    show("one");
    show("two/file");
    show("three");
    show("two/below/../file");
    show("loop");
    show("loop/file");
    show("dangling");
    show("one/");
    show_target("one");
    show_target("two");
    show_target("folder");
    show_target("folder/none");
    show_kind("one");
    show_kind("two");
    show_kind("two/");
    show_kind("dangling");
    show_kind("loop");
}

static void open_them(void)
{
    tell("not followed", open("one", O_RDONLY | O_NOFOLLOW));
    tell("exclusive", open("dangling", O_WRONLY | O_CREAT | O_EXCL, 0644));
    put("dangling", "made by the link");
    show("new");
    tell("no folder by a link to a file", open("one", O_RDONLY | O_DIRECTORY));
    char *path = realpath("three", NULL);
    puts(path ? strrchr(path, '/') : "no path");
    free(path);
}

static void change(void)
{
    tell("a hard link to it", link("one", "twin"));
    show_kind("twin");
    tell("renamed", rename("twin", "folder/twin"));
    show("folder/twin");
    tell("replaced", rename("folder/file", "one"));
    show_kind("one");
    tell("no folder to remove", rmdir("two"));
    tell("removed", unlink("two"));
    show("folder/below/up");
    tell("removed", remove("dangling"));
    show("new");
    tell("left alone", access("loop", F_OK));
    tell("into a folder", symlink("/", "root"));
    tell("there", access("root/./..", F_OK));
}

int main(void)
{
    char room[] = "/tmp/links-XXXXXX";
    if (!mkdtemp(room) || chdir(room) < 0)
        return 1;
    make();
    look();
    open_them();
    change();
    return 0;
}
