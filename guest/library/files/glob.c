/* Paths that match a pattern, part by part. */
#include <dirent.h>
#include <errno.h>
#include <fnmatch.h>
#include <glob.h>
#include <limits.h>
#include <stdbool.h>
#include <stdlib.h>
#include <string.h>
#include <sys/stat.h>

struct search {
    glob_t *found;
    int flags;
    int (*on_error)(const char *, int);
};

static bool has_pattern(const char *part)
{
    return strpbrk(part, "*?[\\") != NULL;
}

static int add(struct search *search, const char *path)
{
    glob_t *found = search->found;
    size_t count = found->gl_offs + found->gl_pathc;
    char **larger = realloc(found->gl_pathv, (count + 2) * sizeof *larger);
    if (!larger)
        return GLOB_NOSPACE;
    found->gl_pathv = larger;
    larger[count] = strdup(path);
    larger[count + 1] = NULL;
    found->gl_pathc++;
    return larger[count] ? 0 : GLOB_NOSPACE;
}

static int expand(struct search *search, const char *before, const char *pattern);

/* A path that may be there: the end, or the way on. */
static int go_on(struct search *search, char *path, const char *rest)
{
    struct stat status;
    if ((search->flags & GLOB_MARK || *rest ? stat(path, &status) : lstat(path, &status)) != 0)
        return 0;
    bool is_directory = S_ISDIR(status.st_mode);
    if (*rest)
        return is_directory ? expand(search, path, rest) : 0;
    if (search->flags & GLOB_MARK && is_directory && path[strlen(path) - 1] != '/')
        strcat(path, "/");
    return add(search, path);
}

static int join(char *path, const char *before, const char *name)
{
    size_t length = strlen(before);
    bool needs_slash = length > 0 && before[length - 1] != '/';
    if (length + strlen(name) + 3 > PATH_MAX)
        return GLOB_NOSPACE;
    strcat(strcat(strcpy(path, before), needs_slash ? "/" : ""), name);
    return 0;
}

static int expand_directory(struct search *search, const char *before, const char *part, const char *rest)
{
    int flags = (search->flags & GLOB_NOESCAPE ? FNM_NOESCAPE : 0) | (search->flags & GLOB_PERIOD ? 0 : FNM_PERIOD), code = 0;
    char *path = malloc(PATH_MAX);
    DIR *directory = opendir(*before ? before : ".");
    if (!directory) {
        bool ends = (search->on_error && search->on_error(before, errno)) || search->flags & GLOB_ERR;
        free(path);
        return ends ? GLOB_ABORTED : 0;
    }
    for (struct dirent *entry; path && code == 0 && (entry = readdir(directory)) != NULL;)
        if (fnmatch(part, entry->d_name, flags) == 0) {
            code = join(path, before, entry->d_name);
            if (code == 0)
                code = go_on(search, path, rest);
        }
    closedir(directory);
    free(path);
    return path ? code : GLOB_NOSPACE;
}

/* The first part of a pattern, behind a path that is there. */
static int expand(struct search *search, const char *before, const char *pattern)
{
    size_t slashes = strspn(pattern, "/");
    const char *start = pattern + slashes;
    size_t length = strcspn(start, "/");
    char *path = malloc(2 * PATH_MAX), *part = path + PATH_MAX;
    int code = 0;
    if (!path || length >= PATH_MAX || strlen(before) + 2 > PATH_MAX) {
        free(path);
        return GLOB_NOSPACE;
    }
    strcat(strcpy(path, before), slashes ? "/" : "");
    memcpy(part, start, length);
    part[length] = 0;
    const char *rest = start + length;
    if (length == 0) {
        code = go_on(search, path, "");
    } else if (has_pattern(part)) {
        code = expand_directory(search, path, part, rest);
    } else {
        char *copy = strdup(path);
        code = copy ? join(path, copy, part) : GLOB_NOSPACE;
        free(copy);
        if (code == 0)
            code = go_on(search, path, rest);
    }
    free(path);
    return code;
}

static int compare(const void *one, const void *other)
{
    return strcmp(*(char *const *)one, *(char *const *)other);
}

int glob(const char *restrict pattern, int flags, int (*on_error)(const char *, int), glob_t *restrict found)
{
    struct search search = {found, flags, on_error};
    if (!(flags & GLOB_DOOFFS))
        found->gl_offs = 0;
    if (!(flags & GLOB_APPEND)) {
        found->gl_pathc = 0;
        found->gl_pathv = calloc(found->gl_offs + 1, sizeof *found->gl_pathv);
        if (!found->gl_pathv)
            return GLOB_NOSPACE;
    }
    size_t before = found->gl_pathc;
    int code = expand(&search, "", pattern);
    if (code == 0 && found->gl_pathc == before)
        code = flags & GLOB_NOCHECK ? add(&search, pattern) : GLOB_NOMATCH;
    if (!(flags & GLOB_NOSORT) && found->gl_pathc > before)
        qsort(found->gl_pathv + found->gl_offs + before, found->gl_pathc - before, sizeof *found->gl_pathv, compare);
    return code;
}

void globfree(glob_t *found)
{
    for (size_t i = 0; i < found->gl_pathc; i++)
        free(found->gl_pathv[found->gl_offs + i]);
    free(found->gl_pathv);
    found->gl_pathc = 0;
    found->gl_pathv = NULL;
}
