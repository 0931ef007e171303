/* Paths: from a name to its node. */
#include "files.h"

static size_t name_length(const char *name)
{
    return strcspn(name, "/");
}

static const char *skip_slashes(const char *path)
{
    return path + strspn(path, "/");
}

static bool is_name(const struct place *place, const char *name)
{
    return strlen(name) == place->length && memcmp(place->name, name, place->length) == 0;
}

bool is_dots(const struct place *place)
{
    return is_name(place, ".") || is_name(place, "..");
}

struct node *place_node(const struct place *place)
{
    if (place->length == 0 || is_name(place, "."))
        return place->directory;
    if (is_name(place, ".."))
        return place->directory->parent;
    struct entry *entry = entry_find(place->directory, place->name, place->length);
    return entry ? entry->node : NULL;
}

/* The directory that a relative path begins at. */
static int base_node(int base, struct node **node)
{
    *node = files_here;
    if (base == HERE)
        return 0;
    struct open_file *file = file_of(base);
    if (!file)
        return -EBADF;
    *node = file->node;
    return file->node->kind == DIRECTORY ? 0 : -ENOTDIR;
}

/* Takes the next name of a path; `path` moves behind it. */
static int place_next(struct place *place, const char **path)
{
    place->name = *path;
    place->length = name_length(*path);
    if (place->length > LONGEST_NAME)
        return -ENAMETOOLONG;
    const char *rest = *path + place->length;
    *path = skip_slashes(rest);
    place->wants_directory = *rest == '/';
    return place->directory->kind == DIRECTORY ? 0 : -ENOTDIR;
}

static int follow(struct place *place, uint32_t links);

/* Walks from the place's directory to that of the path's last name. So many symbolic links were followed already. */
static int walk(struct place *place, const char *path, uint32_t links)
{
    if (*path == '/')
        place->directory = files_root;
    path = skip_slashes(path);
    int code = place_next(place, &path);
    while (code == 0 && *path) {
        code = follow(place, links);
        struct node *node = code == 0 ? place_node(place) : NULL;
        if (!node)
            return code < 0 ? code : -ENOENT;
        place->directory = node;
        code = place_next(place, &path);
    }
    return code;
}

static int follow(struct place *place, uint32_t links)
{
    bool wants_directory = place->wants_directory;
    struct node *node = place_node(place);
    while (node && node->kind == LINK) {
        int code = ++links > SYMLOOP_MAX ? -ELOOP : walk(place, node->target, links);
        if (code < 0)
            return code;
        node = place_node(place);
    }
    place->wants_directory |= wants_directory;
    return 0;
}

int place_follow(struct place *place)
{
    return follow(place, 0);
}

int path_place(int base, const char *path, struct place *place)
{
    int code = 0;
    if (!*path)
        return -ENOENT;
    if (strlen(path) > LONGEST_PATH)
        return -ENAMETOOLONG;
    *place = (struct place){.directory = files_root};
    if (*path != '/')
        code = base_node(base, &place->directory);
    return code < 0 ? code : walk(place, path, 0);
}

static int node_at(const struct place *place, struct node **node)
{
    *node = place_node(place);
    if (!*node)
        return -ENOENT;
    return place->wants_directory && (*node)->kind != DIRECTORY ? -ENOTDIR : 0;
}

int path_node(int base, const char *path, struct node **node)
{
    struct place place;
    int code = path_place(base, path, &place);
    if (code == 0)
        code = place_follow(&place);
    return code < 0 ? code : node_at(&place, node);
}

int path_name(int base, const char *path, struct node **node)
{
    struct place place;
    int code = path_place(base, path, &place);
    if (code == 0 && place.wants_directory)
        code = place_follow(&place);
    return code < 0 ? code : node_at(&place, node);
}
