/* Reading directories: `.` and `..` first, then the entries in the order in which they were made. */
#define _GNU_SOURCE
#include <dirent.h>
#include <stdlib.h>
#include <unistd.h>
#include "files.h"

enum {
    /* Places in a directory: of `.`, of `..`, and behind both that of each entry by its serial number. */
    SELF = 0,
    PARENT = 1,
    FIRST = 2
};

struct dthreads_directory {
    int descriptor;
    uint32_t place;
    struct dirent entry;
};

static DIR *refuse(int code)
{
    errno = code;
    return NULL;
}

DIR *fdopendir(int descriptor)
{
    struct stat status;
    if (fstat(descriptor, &status) < 0)
        return NULL;
    if (!S_ISDIR(status.st_mode))
        return refuse(ENOTDIR);
    DIR *directory = calloc(1, sizeof *directory);
    if (directory)
        directory->descriptor = descriptor;
    return directory;
}

DIR *opendir(const char *path)
{
    int descriptor = open(path, O_RDONLY | O_DIRECTORY | O_CLOEXEC);
    if (descriptor < 0)
        return NULL;
    DIR *directory = fdopendir(descriptor);
    if (!directory)
        close(descriptor);
    return directory;
}

int closedir(DIR *directory)
{
    int code = close(directory->descriptor);
    free(directory);
    return code;
}

int fdclosedir(DIR *directory)
{
    int descriptor = directory->descriptor;
    free(directory);
    return descriptor;
}

int dirfd(DIR *directory)
{
    return directory->descriptor;
}

static unsigned char type_of(const struct node *node)
{
    switch (node->kind) {
    case DIRECTORY:
        return DT_DIR;
    case REGULAR:
        return DT_REG;
    case ALIAS:
    case LINK:
        return DT_LNK;
    default:
        return DT_CHR;
    }
}

static void fill(DIR *directory, const struct node *node, const char *name, uint32_t next)
{
    struct dirent *entry = &directory->entry;
    entry->d_ino = (ino_t)node->number;
    entry->d_off = (off_t)next;
    entry->d_reclen = sizeof *entry;
    entry->d_type = type_of(node);
    strcpy(entry->d_name, name);
    directory->place = next;
}

/* The next entry of an open directory; false at its end. */
static bool next_entry(DIR *directory, const struct node *node)
{
    if (directory->place == SELF) {
        fill(directory, node, ".", PARENT);
        return true;
    }
    if (directory->place == PARENT) {
        fill(directory, node->parent, "..", FIRST);
        return true;
    }
    const struct entry *entry = node->entries;
    while (entry && entry->serial + FIRST <= directory->place)
        entry = entry->next;
    if (entry)
        fill(directory, entry->node, entry->name, entry->serial + FIRST);
    return entry != NULL;
}

struct dirent *readdir(DIR *directory)
{
    monitor_enter();
    struct open_file *file = file_of(directory->descriptor);
    bool is_open = file && file->node->kind == DIRECTORY;
    bool is_there = is_open && next_entry(directory, file->node);
    monitor_leave();
    if (!is_open)
        errno = EBADF;
    return is_there ? &directory->entry : NULL;
}

int readdir_r(DIR *restrict directory, struct dirent *restrict entry, struct dirent **restrict result)
{
    struct dirent *next = readdir(directory);
    if (next)
        *entry = *next;
    *result = next ? entry : NULL;
    return 0;
}

void rewinddir(DIR *directory)
{
    directory->place = SELF;
}

long telldir(DIR *directory)
{
    return (long)directory->place;
}

void seekdir(DIR *directory, long place)
{
    directory->place = (uint32_t)place;
}

int alphasort(const struct dirent **one, const struct dirent **other)
{
    return strcmp((*one)->d_name, (*other)->d_name);
}

int versionsort(const struct dirent **one, const struct dirent **other)
{
    return strverscmp((*one)->d_name, (*other)->d_name);
}

struct list {
    struct dirent **all;
    size_t count, room;
};

static bool list_add(struct list *list, const struct dirent *entry)
{
    if (list->count == list->room) {
        size_t room = list->room ? 2 * list->room : 16;
        struct dirent **all = realloc(list->all, room * sizeof *all);
        if (!all)
            return false;
        list->all = all;
        list->room = room;
    }
    struct dirent *copy = malloc(sizeof *copy);
    if (!copy)
        return false;
    *copy = *entry;
    list->all[list->count++] = copy;
    return true;
}

static void list_free(struct list *list)
{
    while (list->count > 0)
        free(list->all[--list->count]);
    free(list->all);
}

int scandir(const char *path, struct dirent ***names, int (*filter)(const struct dirent *),
            int (*compare)(const struct dirent **, const struct dirent **))
{
    struct list list = {NULL, 0, 0};
    struct dirent *entry;
    DIR *directory = opendir(path);
    bool is_done = directory != NULL;
    while (is_done && (entry = readdir(directory)))
        is_done = (filter && !filter(entry)) || list_add(&list, entry);
    if (directory)
        closedir(directory);
    if (!is_done) {
        list_free(&list);
        return -1;
    }
    if (compare && list.count > 1)
        qsort(list.all, list.count, sizeof *list.all, (int (*)(const void *, const void *))compare);
    *names = list.all;
    return (int)list.count;
}
