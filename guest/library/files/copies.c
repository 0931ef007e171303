/* What Linux has on descriptors beyond POSIX: copies between them, room for a file, and closing several. */
#define _GNU_SOURCE
#include <errno.h>
#include <fcntl.h>
#include <sys/sendfile.h>
#include <unistd.h>

enum {
    PIECE = 4096
};

/* A program may have functions of these names. */
#pragma weak sendfile
#pragma weak copy_file_range
#pragma weak fallocate
#pragma weak close_range
#pragma weak closefrom

static int refuse(int code)
{
    errno = code;
    return -1;
}

static ssize_t read_at(int descriptor, void *bytes, size_t length, const off_t *place)
{
    return place ? pread(descriptor, bytes, length, *place) : read(descriptor, bytes, length);
}

static ssize_t write_at(int descriptor, const void *bytes, size_t length, const off_t *place)
{
    return place ? pwrite(descriptor, bytes, length, *place) : write(descriptor, bytes, length);
}

/* Copies a piece, from and to places that move on, or those of the descriptors. What isn't written is read again. */
static ssize_t copy_piece(int from, off_t *first, int to, off_t *second, size_t length)
{
    char bytes[PIECE];
    ssize_t got = read_at(from, bytes, length < PIECE ? length : PIECE, first);
    ssize_t put = got > 0 ? write_at(to, bytes, (size_t)got, second) : got;
    ssize_t done = put < 0 ? 0 : put;
    if (!first && done < got)
        lseek(from, (off_t)(done - got), SEEK_CUR);
    if (first)
        *first += (off_t)done;
    if (second)
        *second += (off_t)done;
    return put;
}

static ssize_t copy(int from, off_t *first, int to, off_t *second, size_t length)
{
    size_t all = 0;
    while (all < length) {
        ssize_t done = copy_piece(from, first, to, second, length - all);
        if (done < 0 && all == 0)
            return -1;
        if (done <= 0)
            break;
        all += (size_t)done;
    }
    return (ssize_t)all;
}

ssize_t sendfile(int to, int from, off_t *place, size_t length)
{
    return copy(from, place, to, NULL, length);
}

ssize_t copy_file_range(int from, off_t *first, int to, off_t *second, size_t length, unsigned flags)
{
    return flags ? refuse(EINVAL) : copy(from, first, to, second, length);
}

int fallocate(int descriptor, int mode, off_t offset, off_t length)
{
    int code = mode ? EOPNOTSUPP : posix_fallocate(descriptor, offset, length);
    return code ? refuse(code) : 0;
}

int close_range(unsigned first, unsigned last, int flags)
{
    int end = getdtablesize();
    if (first > last || flags)
        return refuse(EINVAL);
    for (int each = (int)first; each < end && (unsigned)each <= last; each++)
        close(each);
    return 0;
}

void closefrom(int first)
{
    int code = errno;
    if (first < getdtablesize())
        close_range(first < 0 ? 0 : (unsigned)first, ~0u, 0);
    errno = code;
}
