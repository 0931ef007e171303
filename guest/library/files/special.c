/* Files that aren't regular ones: there are none but the pipes of `pipe` and the devices of the beginning. */
#include <errno.h>
#include <fcntl.h>
#include <unistd.h>
#include <sys/stat.h>

int mknodat(int base, const char *path, mode_t mode, dev_t device)
{
    (void)device;
    if ((mode & S_IFMT) != 0 && !S_ISREG(mode)) {
        errno = EPERM;
        return -1;
    }
    int descriptor = openat(base, path, O_WRONLY | O_CREAT | O_EXCL, mode & ~(mode_t)S_IFMT);
    return descriptor < 0 ? -1 : close(descriptor);
}

int mknod(const char *path, mode_t mode, dev_t device)
{
    return mknodat(AT_FDCWD, path, mode, device);
}

int mkfifoat(int base, const char *path, mode_t mode)
{
    return mknodat(base, path, (mode & ~(mode_t)S_IFMT) | S_IFIFO, 0);
}

int mkfifo(const char *path, mode_t mode)
{
    return mkfifoat(AT_FDCWD, path, mode);
}
