/* What is said of a file: its status, its times, its permissions, which are kept and never refuse anything. */
#include <stdarg.h>
#include <unistd.h>
#include <utime.h>
#include <sys/time.h>
#include "files.h"

enum {
    BLOCK = 512,
    /* Values of a time for utimensat. */
    TIME_NOW = (1 << 30) - 1,
    TIME_OMIT = (1 << 30) - 2
};

static mode_t type_of(const struct node *node)
{
    switch (node->kind) {
    case DIRECTORY:
        return S_IFDIR;
    case REGULAR:
        return S_IFREG;
    case PIPE:
    case CONSOLE:
        return S_IFIFO;
    case ALIAS:
    case LINK:
        return S_IFLNK;
    default:
        return S_IFCHR;
    }
}

static uint32_t links_of(const struct node *node)
{
    uint32_t count = node->links;
    if (node->kind == DIRECTORY)
        count += 1;
    for (const struct entry *each = node->entries; each; each = each->next)
        count += each->node->kind == DIRECTORY;
    return count;
}

static int status_of(const struct node *node, struct stat *status)
{
    *status = (struct stat){
        .st_dev = 1,
        .st_ino = (ino_t)node->number,
        .st_mode = type_of(node) | node->mode,
        .st_nlink = (nlink_t)links_of(node),
        .st_uid = node->user,
        .st_gid = node->group,
        .st_size = (off_t)node->size,
        .st_blksize = CHUNK,
        .st_blocks = (blkcnt_t)((node->size + CHUNK - 1) / CHUNK * (CHUNK / BLOCK)),
        .st_atim = node->accessed,
        .st_mtim = node->modified,
        .st_ctim = node->changed,
    };
    return 0;
}

int fstat(int descriptor, struct stat *status)
{
    monitor_enter();
    struct open_file *file = file_of(descriptor);
    return files_finish(file ? status_of(file->node, status) : -EBADF);
}

/* The node that a name stands for: behind a symbolic link its target, behind /dev/stdin and its kin what the descriptor has open. */
static int node_behind(int base, const char *path, bool follows, struct node **node)
{
    int code = follows ? path_node(base, path, node) : path_name(base, path, node);
    if (code < 0 || (*node)->kind != ALIAS || !follows)
        return code;
    struct open_file *file = file_of((*node)->stream);
    if (!file)
        return -ENOENT;
    *node = file->node;
    return 0;
}

static int status_at(int base, const char *path, struct stat *status, bool follows)
{
    struct node *node;
    int code = node_behind(base, path, follows, &node);
    return code < 0 ? code : status_of(node, status);
}

int stat(const char *restrict path, struct stat *restrict status)
{
    monitor_enter();
    return files_finish(status_at(HERE, path, status, true));
}

int lstat(const char *restrict path, struct stat *restrict status)
{
    monitor_enter();
    return files_finish(status_at(HERE, path, status, false));
}

int fstatat(int base, const char *restrict path, struct stat *restrict status, int flags)
{
    monitor_enter();
    return files_finish(status_at(base, path, status, !(flags & AT_SYMLINK_NOFOLLOW)));
}

/* The program is the file system's owner: only the permission to execute is looked at. */
static int access_at(int base, const char *path, int mode)
{
    struct node *node;
    int code = node_behind(base, path, true, &node);
    if (mode & ~(R_OK | W_OK | X_OK))
        return -EINVAL;
    if (code < 0)
        return code;
    bool may_execute = node->kind == DIRECTORY || node->mode & 0111;
    return mode & X_OK && !may_execute ? -EACCES : 0;
}

int access(const char *path, int mode)
{
    monitor_enter();
    return files_finish(access_at(HERE, path, mode));
}

int faccessat(int base, const char *path, int mode, int flags)
{
    (void)flags;
    monitor_enter();
    return files_finish(access_at(base, path, mode));
}

int eaccess(const char *path, int mode)
{
    return access(path, mode);
}

int euidaccess(const char *path, int mode)
{
    return access(path, mode);
}

/* Permissions and owners. */

static int mode_set(struct node *node, mode_t mode)
{
    node->mode = mode & PERMISSIONS;
    node->changed = file_time();
    return 0;
}

static int mode_at(int base, const char *path, mode_t mode)
{
    struct node *node;
    int code = node_behind(base, path, true, &node);
    return code < 0 ? code : mode_set(node, mode);
}

int chmod(const char *path, mode_t mode)
{
    monitor_enter();
    return files_finish(mode_at(HERE, path, mode));
}

int fchmodat(int base, const char *path, mode_t mode, int flags)
{
    (void)flags;
    monitor_enter();
    return files_finish(mode_at(base, path, mode));
}

int fchmod(int descriptor, mode_t mode)
{
    monitor_enter();
    struct open_file *file = file_of(descriptor);
    return files_finish(file ? mode_set(file->node, mode) : -EBADF);
}

static int owner_set(struct node *node, uid_t user, gid_t group)
{
    if (user != (uid_t)-1)
        node->user = user;
    if (group != (gid_t)-1)
        node->group = group;
    node->changed = file_time();
    return 0;
}

int fchownat(int base, const char *path, uid_t user, gid_t group, int flags)
{
    struct node *node;
    monitor_enter();
    int code = node_behind(base, path, !(flags & AT_SYMLINK_NOFOLLOW), &node);
    return files_finish(code < 0 ? code : owner_set(node, user, group));
}

int chown(const char *path, uid_t user, gid_t group)
{
    return fchownat(HERE, path, user, group, 0);
}

int lchown(const char *path, uid_t user, gid_t group)
{
    return fchownat(HERE, path, user, group, AT_SYMLINK_NOFOLLOW);
}

int fchown(int descriptor, uid_t user, gid_t group)
{
    monitor_enter();
    struct open_file *file = file_of(descriptor);
    return files_finish(file ? owner_set(file->node, user, group) : -EBADF);
}

/* Times. */

static bool is_time(const struct timespec *time)
{
    return (time->tv_nsec >= 0 && time->tv_nsec < (long)SECOND) || time->tv_nsec == TIME_NOW || time->tv_nsec == TIME_OMIT;
}

static void time_set(struct timespec *place, const struct timespec *time)
{
    if (time->tv_nsec == TIME_NOW)
        *place = file_time();
    else if (time->tv_nsec != TIME_OMIT)
        *place = *time;
}

static int times_set(struct node *node, const struct timespec times[2])
{
    static const struct timespec now[2] = {{.tv_nsec = TIME_NOW}, {.tv_nsec = TIME_NOW}};
    times = times ? times : now;
    if (!is_time(&times[0]) || !is_time(&times[1]))
        return -EINVAL;
    time_set(&node->accessed, &times[0]);
    time_set(&node->modified, &times[1]);
    node->changed = file_time();
    return 0;
}

int utimensat(int base, const char *path, const struct timespec times[2], int flags)
{
    struct node *node;
    monitor_enter();
    int code = node_behind(base, path, !(flags & AT_SYMLINK_NOFOLLOW), &node);
    return files_finish(code < 0 ? code : times_set(node, times));
}

int futimens(int descriptor, const struct timespec times[2])
{
    monitor_enter();
    struct open_file *file = file_of(descriptor);
    return files_finish(file ? times_set(file->node, times) : -EBADF);
}

int utime(const char *path, const struct utimbuf *times)
{
    struct timespec both[2];
    if (times) {
        both[0] = (struct timespec){.tv_sec = times->actime};
        both[1] = (struct timespec){.tv_sec = times->modtime};
    }
    return utimensat(HERE, path, times ? both : NULL, 0);
}

/* Times in microseconds; false for one that is none. */
static bool convert(const struct timeval times[2], struct timespec both[2])
{
    for (int i = 0; times && i < 2; i++) {
        if (times[i].tv_usec < 0 || times[i].tv_usec >= 1000000)
            return false;
        both[i] = (struct timespec){.tv_sec = times[i].tv_sec, .tv_nsec = (long)times[i].tv_usec * 1000};
    }
    return true;
}

static int refuse_times(void)
{
    errno = EINVAL;
    return -1;
}

int utimes(const char *path, const struct timeval times[2])
{
    struct timespec both[2];
    return convert(times, both) ? utimensat(HERE, path, times ? both : NULL, 0) : refuse_times();
}

int lutimes(const char *path, const struct timeval times[2])
{
    struct timespec both[2];
    return convert(times, both) ? utimensat(HERE, path, times ? both : NULL, AT_SYMLINK_NOFOLLOW) : refuse_times();
}

int futimes(int descriptor, const struct timeval times[2])
{
    struct timespec both[2];
    return convert(times, both) ? futimens(descriptor, times ? both : NULL) : refuse_times();
}

/* Limits. */

static long limit_of(int name)
{
    switch (name) {
    case _PC_LINK_MAX:
        return LINK_MAX;
    case _PC_NAME_MAX:
        return LONGEST_NAME;
    case _PC_PATH_MAX:
        return PATH_MAX;
    case _PC_PIPE_BUF:
        return PIPE_BUF;
    case _PC_NO_TRUNC:
    case _PC_CHOWN_RESTRICTED:
        return 1;
    default:
        errno = EINVAL;
        return -1;
    }
}

long pathconf(const char *path, int name)
{
    return access(path, F_OK) == 0 ? limit_of(name) : -1;
}

long fpathconf(int descriptor, int name)
{
    struct stat status;
    return fstat(descriptor, &status) == 0 ? limit_of(name) : -1;
}
