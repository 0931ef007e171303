/* Memory by mmap: pages of the heap, filled with zeros or with a copy of a file's bytes. All of it may be read and written. */
#include <string.h>
#include <unistd.h>
#include <sys/mman.h>
#include "../threads/monitor.h"

static void *refuse(int code)
{
    errno = code;
    return MAP_FAILED;
}

static uint32_t pages_of(size_t length)
{
    return (uint32_t)((length + DTHREADS_PAGE - 1) / DTHREADS_PAGE);
}

/* A program that opens no file doesn't get the file system by mmap. */
#pragma weak pread

/* Copies a file's bytes from `offset` on; false for a descriptor that can't be read. */
static bool fill(char *address, size_t length, int descriptor, off_t offset)
{
    errno = EBADF;
    if (!pread)
        return false;
    while (length > 0) {
        ssize_t count = pread(descriptor, address, length, offset);
        if (count <= 0)
            return count == 0;
        address += count;
        offset += (off_t)count;
        length -= (size_t)count;
    }
    return true;
}

void *mmap(void *wanted, size_t length, int protection, int flags, int descriptor, off_t offset)
{
    bool is_file = !(flags & MAP_ANONYMOUS);
    (void)wanted;
    if (length == 0 || offset % DTHREADS_PAGE != 0 || !(flags & (MAP_PRIVATE | MAP_SHARED)))
        return refuse(EINVAL);
    if (flags & MAP_FIXED || protection & PROT_EXEC)
        return refuse(ENOTSUP);
    if (is_file && flags & MAP_SHARED && protection & PROT_WRITE)
        return refuse(ENODEV);
    if (length > (size_t)DTHREADS_HEAP_PAGES * DTHREADS_PAGE)
        return refuse(ENOMEM);
    char *address = heap_map(pages_of(length));
    if (!address)
        return refuse(ENOMEM);
    memset(address, 0, (size_t)pages_of(length) * DTHREADS_PAGE);
    if (!is_file || fill(address, length, descriptor, offset))
        return address;
    int code = errno;
    heap_unmap(address, pages_of(length));
    return refuse(code == ESPIPE || code == EISDIR ? ENODEV : code);
}

static int finish(bool is_done, int code)
{
    if (is_done)
        return 0;
    errno = code;
    return -1;
}

int munmap(void *address, size_t length)
{
    bool is_range = (uintptr_t)address % DTHREADS_PAGE == 0 && length > 0;
    hint_called();
    return finish(is_range && heap_unmap(address, pages_of(length)), EINVAL);
}

/* Moves pages to others, with zeros behind the old ones. */
static void *move(char *address, uint32_t old, uint32_t pages)
{
    char *fresh = heap_map(pages);
    if (!fresh)
        return refuse(ENOMEM);
    memcpy(fresh, address, (size_t)old * DTHREADS_PAGE);
    memset(fresh + (size_t)old * DTHREADS_PAGE, 0, (size_t)(pages - old) * DTHREADS_PAGE);
    if (heap_unmap(address, old))
        return fresh;
    heap_unmap(fresh, pages);
    return refuse(EFAULT);
}

void *mremap(void *address, size_t length, size_t wanted, int flags, ...)
{
    uint32_t old = pages_of(length), pages = pages_of(wanted);
    if ((uintptr_t)address % DTHREADS_PAGE != 0 || length == 0 || wanted == 0 || flags & ~MREMAP_MAYMOVE)
        return refuse(EINVAL);
    if (wanted > (size_t)DTHREADS_HEAP_PAGES * DTHREADS_PAGE || (pages > old && !(flags & MREMAP_MAYMOVE)))
        return refuse(ENOMEM);
    hint_called();
    if (pages > old)
        return move(address, old, pages);
    if (pages < old && !heap_unmap((char *)address + (size_t)pages * DTHREADS_PAGE, old - pages))
        return refuse(EFAULT);
    return address;
}

int mprotect(void *address, size_t length, int protection)
{
    (void)length;
    if ((uintptr_t)address % DTHREADS_PAGE != 0)
        return finish(false, EINVAL);
    return finish(!(protection & PROT_EXEC), EACCES);
}

int madvise(void *address, size_t length, int advice)
{
    if (advice == MADV_DONTNEED)
        memset(address, 0, length);
    return 0;
}

int posix_madvise(void *address, size_t length, int advice)
{
    (void)address;
    (void)length;
    (void)advice;
    return 0;
}

int msync(void *address, size_t length, int flags)
{
    (void)length;
    (void)flags;
    return finish((uintptr_t)address % DTHREADS_PAGE == 0, EINVAL);
}

int mlock(const void *address, size_t length)
{
    (void)address;
    (void)length;
    return 0;
}

int munlock(const void *address, size_t length)
{
    (void)address;
    (void)length;
    return 0;
}

int mlockall(int flags)
{
    (void)flags;
    return 0;
}

int munlockall(void)
{
    return 0;
}
