/* Nodes of the file system: the bytes of regular files, and the entries of directories. */
#include <stdlib.h>
#include "files.h"

/* (most programs end in the first second, and nothing is divided for them) */
struct timespec file_time(void)
{
    uint64_t seconds = monitor.clock < SECOND ? 0 : monitor.clock / SECOND;
    return (struct timespec){.tv_sec = (time_t)seconds + dthreads_epoch, .tv_nsec = (long)(monitor.clock - seconds * SECOND)};
}

struct node *node_make(enum kind kind, mode_t mode)
{
    static uint32_t made;
    struct node *node = calloc(1, sizeof *node);
    if (!node)
        return NULL;
    node->kind = (uint8_t)kind;
    node->mode = mode;
    node->number = ++made;
    node->accessed = node->modified = node->changed = file_time();
    return node;
}

static void chunks_free(struct node *node, uint32_t from)
{
    for (uint32_t i = from; i < node->room; i++) {
        free(node->chunks[i]);
        node->chunks[i] = NULL;
    }
}

void node_release(struct node *node)
{
    if (node->links > 0 || node->opens > 0)
        return;
    chunks_free(node, 0);
    free(node->chunks);
    pipe_free(node->pipe);
    free(node->target);
    free(node);
}

/* Room in the table for so many chunks. */
static bool chunks_reserve(struct node *node, uint32_t count)
{
    if (count <= node->room)
        return true;
    uint32_t room = count < 2 * node->room ? 2 * node->room : count;
    char **chunks = realloc(node->chunks, room * sizeof *chunks);
    if (!chunks)
        return false;
    memset(chunks + node->room, 0, (room - node->room) * sizeof *chunks);
    node->chunks = chunks;
    node->room = room;
    return true;
}

/* The chunk that a place lies in, made if it is not there, or NULL. */
static char *chunk_at(struct node *node, uint32_t place)
{
    uint32_t index = place / CHUNK;
    if (!chunks_reserve(node, index + 1))
        return NULL;
    if (!node->chunks[index])
        node->chunks[index] = calloc(1, CHUNK);
    return node->chunks[index];
}

static uint32_t piece_at(uint32_t place, uint32_t length)
{
    uint32_t rest = CHUNK - place % CHUNK;
    return length < rest ? length : rest;
}

uint32_t node_read(const struct node *node, uint32_t place, char *bytes, uint32_t length)
{
    if (place >= node->size)
        return 0;
    uint32_t count = length < node->size - place ? length : node->size - place;
    if (node->image) {
        hint_copy(bytes, node->image + place, count);
        return count;
    }
    for (uint32_t done = 0; done < count;) {
        uint32_t index = (place + done) / CHUNK, part = piece_at(place + done, count - done);
        if (index < node->room && node->chunks[index])
            hint_copy(bytes + done, node->chunks[index] + (place + done) % CHUNK, part);
        else
            memset(bytes + done, 0, part);
        done += part;
    }
    return count;
}

static uint32_t store(struct node *node, uint32_t place, const char *bytes, uint32_t length)
{
    uint32_t done = 0;
    while (done < length) {
        char *chunk = chunk_at(node, place + done);
        if (!chunk)
            break;
        uint32_t part = piece_at(place + done, length - done);
        memcpy(chunk + (place + done) % CHUNK, bytes + done, part);
        done += part;
    }
    if (done > 0 && place + done > node->size)
        node->size = place + done;
    return done;
}

/* Moves the link's bytes into chunks, up to `size`. */
static bool image_copy(struct node *node, uint32_t size)
{
    const char *image = node->image;
    uint32_t length = size < node->size ? size : node->size;
    if (!image)
        return true;
    node->image = NULL;
    if (store(node, 0, image, length) == length)
        return true;
    chunks_free(node, 0);
    node->image = image;
    return false;
}

uint32_t node_write(struct node *node, uint32_t place, const char *bytes, uint32_t length)
{
    if (!image_copy(node, node->size))
        return 0;
    node->modified = node->changed = file_time();
    return store(node, place, bytes, length);
}

/* Zeros behind the file's end in its last chunk, for a file that grows later. */
static void clear_rest(struct node *node, uint32_t size)
{
    uint32_t index = size / CHUNK;
    if (index < node->room && node->chunks[index])
        memset(node->chunks[index] + size % CHUNK, 0, CHUNK - size % CHUNK);
}

int node_resize(struct node *node, uint32_t size)
{
    if (!image_copy(node, size))
        return -ENOSPC;
    if (size < node->size) {
        clear_rest(node, size);
        chunks_free(node, (size + CHUNK - 1) / CHUNK);
    }
    node->size = size;
    node->modified = node->changed = file_time();
    return 0;
}

/* Directories. */

struct entry *entry_find(const struct node *directory, const char *name, size_t length)
{
    struct entry *entry = directory->entries;
    while (entry && (strncmp(entry->name, name, length) != 0 || entry->name[length]))
        entry = entry->next;
    return entry;
}

int entry_add(struct node *directory, const char *name, size_t length, struct node *node)
{
    struct entry **place = &directory->entries;
    struct entry *entry = malloc(sizeof *entry + length + 1);
    if (!entry)
        return -ENOSPC;
    while (*place)
        place = &(*place)->next;
    *entry = (struct entry){.node = node, .serial = ++directory->serial};
    memcpy(entry->name, name, length);
    entry->name[length] = 0;
    *place = entry;
    node->links++;
    if (node->kind == DIRECTORY)
        node->parent = directory;
    directory->modified = directory->changed = node->changed = file_time();
    return 0;
}

void entry_remove(struct node *directory, struct entry *entry)
{
    struct entry **place = &directory->entries;
    while (*place != entry)
        place = &(*place)->next;
    *place = entry->next;
    directory->modified = directory->changed = entry->node->changed = file_time();
    entry->node->links--;
    node_release(entry->node);
    free(entry);
}
