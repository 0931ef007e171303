/* The file system in memory: nodes, their names, and open files. All of it is guarded by the monitor. It is linked only into a
 * program that names a function of files. Functions that may fail return a count or 0, or an error number below zero. */
#ifndef FILES_H
#define FILES_H

#include <sys/types.h>
#include <sys/stat.h>
#include <fcntl.h>
#include <limits.h>
#include <string.h>
#include "../threads/monitor.h"
#include "console.h"

enum {
    /* Open descriptors at most. */
    DESCRIPTORS = 256,
    /* Bytes of a regular file lie in chunks of so many. */
    CHUNK = 4096,
    LONGEST_NAME = 255,
    LONGEST_PATH = 4095,
    PERMISSIONS = 07777,
    /* A base for relative paths: the working directory. */
    HERE = AT_FDCWD
};

enum kind {
    DIRECTORY,
    REGULAR,
    CONSOLE,
    /* A name for whatever a standard descriptor has open. */
    ALIAS,
    NULL_DEVICE,
    ZERO_DEVICE,
    RANDOM_DEVICE,
    PIPE,
    /* A symbolic link. */
    LINK
};

struct node {
    uint8_t kind;
    /* The standard descriptor that a console or an alias stands for. */
    uint8_t stream;
    mode_t mode;
    uid_t user;
    gid_t group;
    uint32_t number;
    /* Names, and open files with working directories: a node without any of them is freed. */
    uint32_t links;
    uint32_t opens;
    struct timespec accessed, modified, changed;
    /* A regular file. The bytes that the link brought stay in place up to the first change. */
    uint32_t size;
    const char *image;
    char **chunks;
    uint32_t room;
    /* A directory: its entries in the order in which they were made. */
    struct entry *entries;
    uint32_t serial;
    struct node *parent;
    struct pipe *pipe;
    /* A symbolic link: the path that it stands for. */
    char *target;
};

struct entry {
    struct entry *next;
    struct node *node;
    /* Ascending within a directory. */
    uint32_t serial;
    char name[];
};

struct open_file {
    struct node *node;
    uint32_t references;
    uint32_t place;
    int flags;
};

/* The last name of a path, and the directory that it lies in. */
struct place {
    struct node *directory;
    const char *name;
    size_t length;
    /* Slashes follow the name. */
    bool wants_directory;
};

/* Nodes. */
struct timespec file_time(void);
struct node *node_make(enum kind kind, mode_t mode);
void node_release(struct node *node);
uint32_t node_read(const struct node *node, uint32_t place, char *bytes, uint32_t length);
/* How many bytes were written: fewer than wanted if memory ran out. */
uint32_t node_write(struct node *node, uint32_t place, const char *bytes, uint32_t length);
int node_resize(struct node *node, uint32_t size);
struct entry *entry_find(const struct node *directory, const char *name, size_t length);
int entry_add(struct node *directory, const char *name, size_t length, struct node *node);
void entry_remove(struct node *directory, struct entry *entry);

/* Paths. */
extern struct node *files_root, *files_here;
int path_place(int base, const char *path, struct place *place);
/* Moves a place to the one that the symbolic links of its name stand for. */
int place_follow(struct place *place);
int path_node(int base, const char *path, struct node **node);
/* The node of the name itself, which may be a symbolic link. */
int path_name(int base, const char *path, struct node **node);
/* The node of a place, or NULL. */
struct node *place_node(const struct place *place);
bool is_dots(const struct place *place);

/* Descriptors. */
void files_begin(void);
/* Adds a file that is there at the start, with the directories on its way; `image` stays in place. */
void files_add(const char *path, const char *image, uint32_t size);
struct open_file *file_of(int descriptor);
int file_open(int base, const char *path, int flags, mode_t mode);
/* A descriptor for a new open file of a node. */
int node_open(struct node *node, int flags);
ssize_t file_read(struct open_file *file, void *bytes, size_t length, uint32_t *place);
ssize_t file_write(struct open_file *file, const void *bytes, size_t length, uint32_t *place);
/* Leaves the monitor: the result of a call of POSIX. */
int files_finish(int code);

/* Pipes. `pollers` are the threads that wait for any change of one. */
extern struct dthreads_queue pollers;
ssize_t pipe_read(struct open_file *file, char *bytes, size_t length);
ssize_t pipe_write(struct open_file *file, const char *bytes, size_t length);
void pipe_attach(struct open_file *file);
void pipe_detach(struct open_file *file);
void pipe_free(struct pipe *pipe);
/* The events of poll.h that hold for an open file. */
int file_events(struct open_file *file);

void random_fill(char *bytes, size_t length);

static inline bool may_read(const struct open_file *file)
{
    return (file->flags & O_ACCMODE) != O_WRONLY;
}

static inline bool may_write(const struct open_file *file)
{
    return (file->flags & O_ACCMODE) != O_RDONLY;
}

#endif
