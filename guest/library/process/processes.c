/* Other processes: there are none. Programs that name them on ways that they don't take can be linked, with a warning; the calls fail
 * with ENOSYS. */
#include <errno.h>
#include <mntent.h>
#include <spawn.h>
#include <stddef.h>
#include <sys/types.h>
#include <unistd.h>

/* What the linker says of a program that names a function; dthreads-cc prints it once. */
#define WARN(name) \
    __attribute__((used, section(".gnu.warning." #name))) static const char warning_of_##name[] = \
        "dthreads-cc: " #name ": there are no processes here; the call fails with ENOSYS"

/* A program may have its own, and ask for others. */
#define ABSENT(result, value, name, ...) \
    WARN(name); \
    __attribute__((weak)) result name(__VA_ARGS__) \
    { \
        errno = ENOSYS; \
        return value; \
    }

#pragma GCC diagnostic ignored "-Wunused-parameter"

ABSENT(pid_t, -1, fork, void)
ABSENT(pid_t, -1, vfork, void)
ABSENT(pid_t, -1, _Fork, void)
ABSENT(int, -1, execl, const char *path, const char *argument, ...)
ABSENT(int, -1, execle, const char *path, const char *argument, ...)
ABSENT(int, -1, execlp, const char *path, const char *argument, ...)
ABSENT(int, -1, execv, const char *path, char *const arguments[])
ABSENT(int, -1, execve, const char *path, char *const arguments[], char *const environment[])
ABSENT(int, -1, execvp, const char *path, char *const arguments[])
ABSENT(int, -1, execvpe, const char *path, char *const arguments[], char *const environment[])
ABSENT(int, -1, fexecve, int descriptor, char *const arguments[], char *const environment[])
ABSENT(pid_t, -1, wait, int *status)
ABSENT(pid_t, -1, waitpid, pid_t process, int *status, int options)
ABSENT(pid_t, -1, wait3, int *status, int options, void *usage)
ABSENT(pid_t, -1, wait4, pid_t process, int *status, int options, void *usage)
ABSENT(int, -1, waitid, int kind, id_t process, void *information, int options)
ABSENT(int, -1, daemon, int stays, int keeps)

/* These answer with the error. */
WARN(posix_spawn);
int posix_spawn(pid_t *process, const char *path, const posix_spawn_file_actions_t *actions, const posix_spawnattr_t *attributes,
                char *const arguments[], char *const environment[])
{
    return ENOSYS;
}

/* Actions and attributes of a process that isn't made: none is kept. */
int posix_spawn_file_actions_init(posix_spawn_file_actions_t *actions)
{
    *actions = NULL;
    return 0;
}

int posix_spawn_file_actions_destroy(posix_spawn_file_actions_t *actions)
{
    return 0;
}

int posix_spawn_file_actions_addopen(posix_spawn_file_actions_t *restrict actions, int descriptor, const char *restrict path, int flags,
                                     mode_t mode)
{
    return 0;
}

int posix_spawn_file_actions_adddup2(posix_spawn_file_actions_t *actions, int descriptor, int other)
{
    return 0;
}

int posix_spawn_file_actions_addclose(posix_spawn_file_actions_t *actions, int descriptor)
{
    return 0;
}

int posix_spawnattr_init(posix_spawnattr_t *attributes)
{
    *attributes = NULL;
    return 0;
}

int posix_spawnattr_destroy(posix_spawnattr_t *attributes)
{
    return 0;
}

int posix_spawnattr_setflags(posix_spawnattr_t *attributes, short flags)
{
    return 0;
}

int posix_spawnattr_setpgroup(posix_spawnattr_t *attributes, pid_t group)
{
    return 0;
}

int posix_spawnattr_setsigdefault(posix_spawnattr_t *restrict attributes, const sigset_t *restrict set)
{
    return 0;
}

int posix_spawnattr_setsigmask(posix_spawnattr_t *restrict attributes, const sigset_t *restrict set)
{
    return 0;
}

WARN(posix_spawnp);
int posix_spawnp(pid_t *process, const char *file, const posix_spawn_file_actions_t *actions, const posix_spawnattr_t *attributes,
                 char *const arguments[], char *const environment[])
{
    return ENOSYS;
}
