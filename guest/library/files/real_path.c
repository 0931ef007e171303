/* A path without links, dots and repeated slashes. */
#include <errno.h>
#include <limits.h>
#include <stdbool.h>
#include <stdlib.h>
#include <string.h>
#include <sys/stat.h>
#include <unistd.h>

/* Text that is built, and what is still to be looked at. */
struct walk {
    char done[PATH_MAX];
    char rest[PATH_MAX];
    int links;
};

static char *refuse(int code)
{
    errno = code;
    return NULL;
}

/* Removes the last part of what was built. */
static void go_up(char *done)
{
    char *slash = strrchr(done, '/');
    if (slash)
        *slash = 0;
}

/* Puts a link's target before what is left, which is empty or begins with a slash. */
static bool follow(struct walk *walk)
{
    char target[PATH_MAX];
    ssize_t length = readlink(walk->done, target, sizeof target - 1);
    if (length < 0 || ++walk->links > SYMLOOP_MAX || (size_t)length + strlen(walk->rest) + 2 > sizeof target) {
        errno = length < 0 ? errno : ELOOP;
        return false;
    }
    target[length] = 0;
    strcat(target, walk->rest);
    strcpy(walk->rest, target);
    if (*target == '/')
        walk->done[0] = 0;
    else
        go_up(walk->done);
    return true;
}

/* Takes the first part of what is left. */
static bool step(struct walk *walk)
{
    struct stat status;
    char *start = walk->rest + strspn(walk->rest, "/");
    size_t length = strcspn(start, "/"), before = strlen(walk->done);
    char part[NAME_MAX + 1];
    if (length > NAME_MAX || before + length + 2 > PATH_MAX)
        return refuse(ENAMETOOLONG) != NULL;
    memcpy(part, start, length);
    part[length] = 0;
    memmove(walk->rest, start + length, strlen(start + length) + 1);
    if (length == 0 || strcmp(part, ".") == 0)
        return true;
    if (strcmp(part, "..") == 0) {
        go_up(walk->done);
        return true;
    }
    strcat(strcat(walk->done, "/"), part);
    if (lstat(walk->done, &status) != 0)
        return false;
    if (S_ISLNK(status.st_mode))
        return follow(walk);
    return S_ISDIR(status.st_mode) || *walk->rest == 0 || refuse(ENOTDIR);
}

static bool walk_path(struct walk *walk, const char *path)
{
    if (strlen(path) >= sizeof walk->rest)
        return refuse(ENAMETOOLONG) != NULL;
    strcpy(walk->rest, path);
    walk->links = 0;
    walk->done[0] = 0;
    if (*path != '/' && !getcwd(walk->done, sizeof walk->done))
        return false;
    if (strcmp(walk->done, "/") == 0)
        walk->done[0] = 0;
    while (*walk->rest)
        if (!step(walk))
            return false;
    return true;
}

char *realpath(const char *restrict path, char *restrict resolved)
{
    if (!path)
        return refuse(EINVAL);
    if (*path == 0)
        return refuse(ENOENT);
    struct walk *walk = malloc(sizeof *walk);
    if (!walk)
        return NULL;
    char *result = NULL;
    if (walk_path(walk, path)) {
        const char *text = *walk->done ? walk->done : "/";
        result = resolved ? strcpy(resolved, text) : strdup(text);
    }
    free(walk);
    return result;
}
