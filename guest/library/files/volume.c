/* What is said of the file system: it is as large as the heap. */
#include <sys/statfs.h>
#include <sys/statvfs.h>
#include "files.h"

/* A program may have functions of these names. */
#pragma weak statfs
#pragma weak fstatfs

enum {
    /* The type that Linux gives a file system in memory. */
    IN_MEMORY = 0x01021994,
    MOST_NODES = 1 << 20
};

static int describe(struct statvfs *volume)
{
    uint32_t left = DTHREADS_HEAP_PAGES - heap_given();
    *volume = (struct statvfs){
        .f_bsize = CHUNK,
        .f_frsize = CHUNK,
        .f_blocks = DTHREADS_HEAP_PAGES,
        .f_bfree = left,
        .f_bavail = left,
        .f_files = MOST_NODES,
        .f_ffree = MOST_NODES,
        .f_favail = MOST_NODES,
        .f_fsid = 1,
        .f_namemax = LONGEST_NAME,
    };
    return 0;
}

int statvfs(const char *restrict path, struct statvfs *restrict volume)
{
    struct node *node;
    monitor_enter();
    int code = path_node(HERE, path, &node);
    return files_finish(code < 0 ? code : describe(volume));
}

int fstatvfs(int descriptor, struct statvfs *volume)
{
    monitor_enter();
    return files_finish(file_of(descriptor) ? describe(volume) : -EBADF);
}

static int translated(int code, const struct statvfs *from, struct statfs *volume)
{
    if (code == 0)
        *volume = (struct statfs){
            .f_type = IN_MEMORY,
            .f_bsize = (long)from->f_bsize,
            .f_blocks = from->f_blocks,
            .f_bfree = from->f_bfree,
            .f_bavail = from->f_bavail,
            .f_files = from->f_files,
            .f_ffree = from->f_ffree,
            .f_fsid = {{(int)from->f_fsid}},
            .f_namelen = (long)from->f_namemax,
            .f_frsize = (long)from->f_frsize,
        };
    return code;
}

int statfs(const char *path, struct statfs *volume)
{
    struct statvfs found;
    return translated(statvfs(path, &found), &found, volume);
}

int fstatfs(int descriptor, struct statfs *volume)
{
    struct statvfs found;
    return translated(fstatvfs(descriptor, &found), &found, volume);
}
