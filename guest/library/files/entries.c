/* Calls that change names: directories, links, the working directory. */
#include <stdio.h>
#include <stdlib.h>
#include <unistd.h>
#include "files.h"

/* A place where a new name may be made. */
static int new_place(int base, const char *path, struct place *place)
{
    int code = path_place(base, path, place);
    if (code < 0)
        return code;
    if (place_node(place))
        return -EEXIST;
    return place->directory->links == 0 ? -ENOENT : 0;
}

static int make_directory(int base, const char *path, mode_t mode)
{
    struct place place;
    int code = new_place(base, path, &place);
    if (code < 0)
        return code;
    mode_t mask = umask(0);
    umask(mask);
    struct node *node = node_make(DIRECTORY, mode & ~mask & PERMISSIONS);
    if (!node)
        return -ENOSPC;
    code = entry_add(place.directory, place.name, place.length, node);
    if (code < 0)
        node_release(node);
    return code;
}

int mkdirat(int base, const char *path, mode_t mode)
{
    monitor_enter();
    return files_finish(make_directory(base, path, mode));
}

int mkdir(const char *path, mode_t mode)
{
    return mkdirat(HERE, path, mode);
}

/* Takes a name away; who still has a directory of that name open finds it empty. */
static void remove_entry(struct node *directory, struct entry *entry)
{
    if (entry->node->kind == DIRECTORY)
        entry->node->parent = entry->node;
    entry_remove(directory, entry);
}

static int remove_here(int base, const char *path)
{
    struct place place;
    int code = path_place(base, path, &place);
    if (code < 0)
        return code;
    struct node *node = place_node(&place);
    if (!node)
        return -ENOENT;
    if (place.length == 0)
        return -EBUSY;
    if (is_dots(&place))
        return place.length == 1 ? -EINVAL : -ENOTEMPTY;
    if (node->kind != DIRECTORY)
        return -ENOTDIR;
    if (node->entries)
        return -ENOTEMPTY;
    remove_entry(place.directory, entry_find(place.directory, place.name, place.length));
    return 0;
}

int rmdir(const char *path)
{
    monitor_enter();
    return files_finish(remove_here(HERE, path));
}

static int unlink_here(int base, const char *path)
{
    struct place place;
    int code = path_place(base, path, &place);
    if (code < 0)
        return code;
    struct node *node = place_node(&place);
    if (!node)
        return -ENOENT;
    if (node->kind == DIRECTORY)
        return -EISDIR;
    if (place.wants_directory)
        return -ENOTDIR;
    entry_remove(place.directory, entry_find(place.directory, place.name, place.length));
    return 0;
}

int unlink(const char *path)
{
    monitor_enter();
    return files_finish(unlink_here(HERE, path));
}

int unlinkat(int base, const char *path, int flags)
{
    monitor_enter();
    return files_finish(flags & AT_REMOVEDIR ? remove_here(base, path) : unlink_here(base, path));
}

int remove(const char *path)
{
    monitor_enter();
    int code = unlink_here(HERE, path);
    return files_finish(code == -EISDIR ? remove_here(HERE, path) : code);
}

/* Whether a directory is another one or lies within it. */
static bool is_within(const struct node *node, const struct node *other)
{
    while (node != other && node->parent != node)
        node = node->parent;
    return node == other;
}

/* Whether `node` may take the name that `old` has. */
static int may_replace(const struct node *node, const struct node *old)
{
    if (old->kind == DIRECTORY && node->kind != DIRECTORY)
        return -EISDIR;
    if (old->kind != DIRECTORY && node->kind == DIRECTORY)
        return -ENOTDIR;
    return old->kind == DIRECTORY && old->entries ? -ENOTEMPTY : 0;
}

static int check_move(const struct place *from, const struct place *to, const struct node *node)
{
    if (!node)
        return -ENOENT;
    if (from->length == 0 || to->length == 0 || is_dots(from) || is_dots(to))
        return -EBUSY;
    if (node->kind != DIRECTORY && (from->wants_directory || to->wants_directory))
        return -ENOTDIR;
    if (node->kind == DIRECTORY && is_within(to->directory, node))
        return -EINVAL;
    return to->directory->links == 0 ? -ENOENT : 0;
}

static int rename_here(int base, const char *path, int other_base, const char *other)
{
    struct place from, to;
    int code = path_place(base, path, &from);
    if (code == 0)
        code = path_place(other_base, other, &to);
    if (code < 0)
        return code;
    struct node *node = place_node(&from);
    code = check_move(&from, &to, node);
    if (code < 0)
        return code;
    struct entry *old = entry_find(to.directory, to.name, to.length);
    if (old && old->node == node)
        return 0;
    code = old ? may_replace(node, old->node) : 0;
    if (code == 0)
        code = entry_add(to.directory, to.name, to.length, node);
    if (code < 0)
        return code;
    if (old)
        remove_entry(to.directory, old);
    entry_remove(from.directory, entry_find(from.directory, from.name, from.length));
    return 0;
}

int rename(const char *path, const char *other)
{
    monitor_enter();
    return files_finish(rename_here(HERE, path, HERE, other));
}

int renameat(int base, const char *path, int other_base, const char *other)
{
    monitor_enter();
    return files_finish(rename_here(base, path, other_base, other));
}

static int link_here(int base, const char *path, int other_base, const char *other, int flags)
{
    struct place place;
    struct node *node;
    int code = flags & AT_SYMLINK_FOLLOW ? path_node(base, path, &node) : path_name(base, path, &node);
    if (code == 0)
        code = new_place(other_base, other, &place);
    if (code < 0)
        return code;
    if (node->kind == DIRECTORY)
        return -EPERM;
    return place.wants_directory ? -ENOENT : entry_add(place.directory, place.name, place.length, node);
}

int link(const char *path, const char *other)
{
    monitor_enter();
    return files_finish(link_here(HERE, path, HERE, other, 0));
}

int linkat(int base, const char *path, int other_base, const char *other, int flags)
{
    monitor_enter();
    return files_finish(link_here(base, path, other_base, other, flags));
}

/* Symbolic links. */

static int symlink_here(const char *target, int base, const char *path)
{
    struct place place;
    int code = *target ? new_place(base, path, &place) : -ENOENT;
    if (code < 0)
        return code;
    if (strlen(target) > LONGEST_PATH)
        return -ENAMETOOLONG;
    if (place.wants_directory)
        return -ENOENT;
    struct node *node = node_make(LINK, 0777);
    if (!node)
        return -ENOSPC;
    node->target = strdup(target);
    node->size = (uint32_t)strlen(target);
    code = node->target ? entry_add(place.directory, place.name, place.length, node) : -ENOSPC;
    if (code < 0)
        node_release(node);
    return code;
}

int symlinkat(const char *target, int base, const char *path)
{
    monitor_enter();
    return files_finish(symlink_here(target, base, path));
}

int symlink(const char *target, const char *path)
{
    return symlinkat(target, HERE, path);
}

static int target_of(int base, const char *path, char *text, size_t size)
{
    struct node *node;
    int code = path_name(base, path, &node);
    if (code < 0 || node->kind != LINK)
        return code < 0 ? code : -EINVAL;
    uint32_t length = node->size < size ? node->size : (uint32_t)size;
    memcpy(text, node->target, length);
    return (int)length;
}

ssize_t readlinkat(int base, const char *restrict path, char *restrict text, size_t size)
{
    monitor_enter();
    return files_finish(target_of(base, path, text, size));
}

ssize_t readlink(const char *restrict path, char *restrict text, size_t size)
{
    return readlinkat(HERE, path, text, size);
}

/* The working directory. */

static int move_here(struct node *node)
{
    struct node *old = files_here;
    if (node->kind != DIRECTORY)
        return -ENOTDIR;
    node->opens++;
    files_here = node;
    old->opens--;
    node_release(old);
    return 0;
}

int chdir(const char *path)
{
    struct node *node;
    monitor_enter();
    int code = path_node(HERE, path, &node);
    return files_finish(code < 0 ? code : move_here(node));
}

int fchdir(int descriptor)
{
    monitor_enter();
    struct open_file *file = file_of(descriptor);
    return files_finish(file ? move_here(file->node) : -EBADF);
}

/* Puts a node's name with its slash before `end`; NULL if there is no room. */
static char *put_name(const struct node *node, char *start, char *end)
{
    const struct entry *entry = node->parent->entries;
    while (entry->node != node)
        entry = entry->next;
    size_t length = strlen(entry->name);
    if ((size_t)(end - start) < length + 1)
        return NULL;
    memcpy(end - length, entry->name, length);
    end[-(ptrdiff_t)length - 1] = '/';
    return end - length - 1;
}

static int path_of_here(char *text, size_t size)
{
    char *end = text + size - 1, *first = end;
    const struct node *node = files_here;
    if (node->links == 0)
        return -ENOENT;
    while (node != files_root && first) {
        first = put_name(node, text, first);
        node = node->parent;
    }
    if (!first || (first == end && size < 2))
        return -ERANGE;
    if (first == end)
        *--first = '/';
    *end = 0;
    memmove(text, first, (size_t)(end - first) + 1);
    return 0;
}

char *getcwd(char *text, size_t size)
{
    char *given = text;
    if (text && size == 0) {
        errno = EINVAL;
        return NULL;
    }
    size = size ? size : PATH_MAX;
    if (!text)
        text = malloc(size);
    if (!text)
        return NULL;
    monitor_enter();
    if (files_finish(path_of_here(text, size)) == 0)
        return text;
    if (!given)
        free(text);
    return NULL;
}

char *getwd(char *text)
{
    return getcwd(text, PATH_MAX);
}

char *get_current_dir_name(void)
{
    return getcwd(NULL, 0);
}
