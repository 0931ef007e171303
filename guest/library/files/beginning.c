/* The file system at the run's beginning, and the files that are wanted at its end. */
#include <stdlib.h>
#include <unistd.h>
#include "files.h"
#include "packed.h"

struct node *files_root, *files_here;

/* What the link put in: pairs of a path and its bytes, ended by NULL. */
struct linked_file {
    const char *path;
    const char *bytes;
    const char *end;
};

__attribute__((weak)) extern const struct linked_file dthreads_linked_files[];

static struct node *add_node(struct node *directory, const char *name, enum kind kind, mode_t mode)
{
    struct node *node = node_make(kind, mode);
    if (!node || entry_add(directory, name, strlen(name), node) < 0)
        abort();
    return node;
}

static void add_stream(struct node *devices, const char *name, int stream)
{
    struct node *node = node_make(CONSOLE, stream == STDIN_FILENO ? 0400 : 0200);
    add_node(devices, name, ALIAS, 0777)->stream = (uint8_t)stream;
    if (!node || node_open(node, stream == STDIN_FILENO ? O_RDONLY : O_WRONLY) < 0)
        abort();
    node->stream = (uint8_t)stream;
}

static void add_devices(void)
{
    struct node *devices = add_node(files_root, "dev", DIRECTORY, 0755);
    add_node(devices, "null", NULL_DEVICE, 0666);
    add_node(devices, "zero", ZERO_DEVICE, 0666);
    add_node(devices, "random", RANDOM_DEVICE, 0666);
    add_node(devices, "urandom", RANDOM_DEVICE, 0666);
    add_stream(devices, "stdin", STDIN_FILENO);
    add_stream(devices, "stdout", STDOUT_FILENO);
    add_stream(devices, "stderr", STDERR_FILENO);
}

void files_begin(void)
{
    monitor_enter();
    files_root = node_make(DIRECTORY, 0755);
    if (!files_root)
        abort();
    files_root->links = 1;
    files_root->parent = files_here = files_root;
    files_root->opens++;
    add_devices();
    add_node(files_root, "tmp", DIRECTORY, 01777);
    if (dthreads_linked_files)
        for (const struct linked_file *each = dthreads_linked_files; each->path; each++)
            files_add(each->path, each->bytes, (uint32_t)(each->end - each->bytes));
    monitor_leave();
}

/* The directory of a file that is there at the start: those on its way are made. */
static struct node *make_way(const char *path, const char **name)
{
    struct node *directory = files_root;
    for (;;) {
        path += strspn(path, "/");
        size_t length = strcspn(path, "/");
        if (!path[length]) {
            *name = path;
            return directory;
        }
        struct entry *entry = entry_find(directory, path, length);
        if (!entry) {
            struct node *node = node_make(DIRECTORY, 0755);
            if (!node || entry_add(directory, path, length, node) < 0)
                abort();
            entry = entry_find(directory, path, length);
        }
        directory = entry->node;
        path += length;
    }
}

void files_add(const char *path, const char *image, uint32_t size)
{
    const char *name;
    struct node *directory = make_way(path, &name);
    struct entry *old = entry_find(directory, name, strlen(name));
    if (old)
        entry_remove(directory, old);
    struct node *node = add_node(directory, name, REGULAR, 0644);
    node->image = image;
    node->size = size;
}

/* The end: guest/dthreads-exec gets the bytes of each file that it asked for, and then its path. */

struct wanted {
    struct wanted *next;
    char *path;
};

static struct wanted *wanted;

static void want(char *path)
{
    struct wanted *one = malloc(sizeof *one);
    if (!one)
        abort();
    *one = (struct wanted){wanted, path};
    wanted = one;
}

static char *receive(uint32_t length)
{
    char *bytes = malloc(length + 1);
    if (!bytes)
        abort();
    packed_bytes(bytes, length);
    bytes[length] = 0;
    return bytes;
}

/* Tells guest/dthreads-exec that this library finds files in the image. */
__attribute__((section(".note.dthreads.files"), used)) static const struct {
    uint32_t name_bytes, bytes, type;
    char name[12];
    uint32_t version;
} note = {sizeof "dthreads", 4, 3, "dthreads", 1};

/* A file whose bytes are in the image: its record has their address and how many they are. */
static void add_mapped(const char *path)
{
    uint32_t place[2];
    packed_bytes((char *)place, sizeof place);
    files_add(path, (const char *)(uintptr_t)place[0], place[1]);
}

void files_receive(bool is_file, uint32_t name, uint32_t bytes)
{
    char *path = receive(name);
    if (is_file)
        files_add(path, receive(bytes), bytes);
    else if (bytes > 0)
        add_mapped(path);
    else
        want(path);
}

static bool deliver(const struct node *node, const char *path)
{
    char bytes[CHUNK];
    for (uint32_t place = 0; place < node->size;) {
        uint32_t count = node_read(node, place, bytes, sizeof bytes);
        if (console_write(FRAME_BYTES, bytes, count) != DTHREADS_DONE)
            return false;
        place += count;
    }
    return console_write(FRAME_PATH, path, (uint32_t)strlen(path)) == DTHREADS_DONE;
}

void files_deliver(void)
{
    struct node *node;
    monitor_enter();
    for (const struct wanted *each = wanted; each; each = each->next)
        if (path_node(HERE, each->path, &node) == 0 && node->kind == REGULAR && !deliver(node, each->path))
            break;
    wanted = NULL;
    monitor_leave();
}
