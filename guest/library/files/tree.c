/* Walks through a tree of directories. A directory's names are read before its first entry is visited, so the walk has one descriptor
 * open for a moment alone, and sees no entry that is made meanwhile. */
#define _GNU_SOURCE
#include <dirent.h>
#include <errno.h>
#include <ftw.h>
#include <limits.h>
#include <stdbool.h>
#include <stdlib.h>
#include <string.h>
#include <unistd.h>

struct walk {
    __nftw_func_t visit;
    int flags;
    char path[PATH_MAX], start[PATH_MAX];
};

/* Makes the directory of a path the working directory, or the one in which the walk began. */
static int stand(struct walk *walk, int base)
{
    if (chdir(walk->start) < 0 || base == 0)
        return base == 0 ? 0 : -1;
    char held = walk->path[base];
    walk->path[base] = '\0';
    int code = chdir(walk->path);
    walk->path[base] = held;
    return code;
}

static int visit_here(struct walk *walk, const struct stat *status, int kind, int base, int level)
{
    struct FTW place = {base, level};
    if (!(walk->flags & FTW_CHDIR))
        return walk->visit(walk->path, status, kind, &place);
    if (stand(walk, base) < 0)
        return -1;
    int answer = walk->visit(walk->path, status, kind, &place);
    return chdir(walk->start) < 0 ? -1 : answer;
}

static int walk_from(struct walk *walk, int base, int level);

static bool is_dots(const char *name)
{
    return strcmp(name, ".") == 0 || strcmp(name, "..") == 0;
}

/* Visits an entry of the directory whose path has this length. */
static int walk_entry(struct walk *walk, size_t length, const char *name, int level)
{
    bool has_slash = length > 0 && walk->path[length - 1] == '/';
    size_t base = length + !has_slash;
    if (base + strlen(name) >= sizeof walk->path) {
        errno = ENAMETOOLONG;
        return -1;
    }
    strcpy(walk->path + length, has_slash ? "" : "/");
    strcpy(walk->path + base, name);
    int answer = walk_from(walk, (int)base, level);
    walk->path[length] = '\0';
    return answer;
}

/* What a walk makes of the answer of an entry's visit: those that only leave something out don't end it. */
static bool is_end(const struct walk *walk, int answer)
{
    bool has_actions = walk->flags & FTW_ACTIONRETVAL;
    return has_actions ? answer == FTW_STOP || answer < 0 || answer == FTW_SKIP_SIBLINGS : answer != 0;
}

static int walk_entries(struct walk *walk, struct dirent **names, int count, int level)
{
    size_t length = strlen(walk->path);
    int answer = 0;
    for (int i = 0; i < count; i++) {
        if (!is_end(walk, answer) && !is_dots(names[i]->d_name))
            answer = walk_entry(walk, length, names[i]->d_name, level);
        free(names[i]);
    }
    free(names);
    bool has_actions = walk->flags & FTW_ACTIONRETVAL;
    return has_actions && answer != FTW_STOP && answer >= 0 ? 0 : answer;
}

static int walk_directory(struct walk *walk, const struct stat *status, int base, int level)
{
    struct dirent **names;
    int count = scandir(walk->path, &names, NULL, NULL);
    if (count < 0)
        return visit_here(walk, status, FTW_DNR, base, level);
    int answer = walk->flags & FTW_DEPTH ? 0 : visit_here(walk, status, FTW_D, base, level);
    bool is_skipped = walk->flags & FTW_ACTIONRETVAL && answer == FTW_SKIP_SUBTREE;
    if (is_skipped || is_end(walk, answer)) {
        while (count > 0)
            free(names[--count]);
        free(names);
        return is_skipped ? 0 : answer;
    }
    answer = walk_entries(walk, names, count, level + 1);
    return answer == 0 && walk->flags & FTW_DEPTH ? visit_here(walk, status, FTW_DP, base, level) : answer;
}

static int walk_from(struct walk *walk, int base, int level)
{
    struct stat status;
    if ((walk->flags & FTW_PHYS ? lstat(walk->path, &status) : stat(walk->path, &status)) == 0) {
        if (S_ISDIR(status.st_mode))
            return walk_directory(walk, &status, base, level);
        return visit_here(walk, &status, S_ISLNK(status.st_mode) ? FTW_SL : FTW_F, base, level);
    }
    return level == 0 ? -1 : visit_here(walk, &status, FTW_NS, base, level);
}

static int walk_path(const char *path, __nftw_func_t visit, int flags)
{
    if (!*path || strlen(path) >= PATH_MAX) {
        errno = *path ? ENAMETOOLONG : ENOENT;
        return -1;
    }
    struct walk *walk = malloc(sizeof *walk);
    if (!walk)
        return -1;
    walk->visit = visit;
    walk->flags = flags;
    strcpy(walk->path, path);
    const char *slash = strrchr(path, '/');
    int answer = -1;
    if (getcwd(walk->start, sizeof walk->start))
        answer = walk_from(walk, slash && slash[1] ? (int)(slash + 1 - path) : 0, 0);
    free(walk);
    return answer;
}

int nftw(const char *path, __nftw_func_t visit, int descriptors, int flags)
{
    (void)descriptors;
    return walk_path(path, visit, flags);
}

/* The function of ftw gets no place, which is behind its other arguments. */
int ftw(const char *path, __ftw_func_t visit, int descriptors)
{
    (void)descriptors;
    return walk_path(path, (__nftw_func_t)(void (*)(void))visit, 0);
}
