/* There is no network: no socket can be made, and no descriptor is one. */
#define _GNU_SOURCE
#include <errno.h>
#include <sys/socket.h>

static int refuse(int code)
{
    errno = code;
    return -1;
}

int socket(int domain, int type, int protocol)
{
    (void)domain;
    (void)type;
    (void)protocol;
    return refuse(EAFNOSUPPORT);
}

int socketpair(int domain, int type, int protocol, int *pair)
{
    (void)domain;
    (void)type;
    (void)protocol;
    (void)pair;
    return refuse(EAFNOSUPPORT);
}

int bind(int descriptor, const struct sockaddr *address, socklen_t size)
{
    (void)descriptor;
    (void)address;
    (void)size;
    return refuse(ENOTSOCK);
}

int connect(int descriptor, const struct sockaddr *address, socklen_t size)
{
    (void)descriptor;
    (void)address;
    (void)size;
    return refuse(ENOTSOCK);
}

int listen(int descriptor, int count)
{
    (void)descriptor;
    (void)count;
    return refuse(ENOTSOCK);
}

int accept(int descriptor, struct sockaddr *restrict address, socklen_t *restrict size)
{
    (void)descriptor;
    (void)address;
    (void)size;
    return refuse(ENOTSOCK);
}

/* A program may have a function of this name. */
#pragma weak accept4

int accept4(int descriptor, struct sockaddr *restrict address, socklen_t *restrict size, int flags)
{
    (void)flags;
    return accept(descriptor, address, size);
}

int shutdown(int descriptor, int how)
{
    (void)descriptor;
    (void)how;
    return refuse(ENOTSOCK);
}

int getsockname(int descriptor, struct sockaddr *restrict address, socklen_t *restrict size)
{
    (void)descriptor;
    (void)address;
    (void)size;
    return refuse(ENOTSOCK);
}

int getpeername(int descriptor, struct sockaddr *restrict address, socklen_t *restrict size)
{
    (void)descriptor;
    (void)address;
    (void)size;
    return refuse(ENOTSOCK);
}

int getsockopt(int descriptor, int level, int option, void *restrict value, socklen_t *restrict size)
{
    (void)descriptor;
    (void)level;
    (void)option;
    (void)value;
    (void)size;
    return refuse(ENOTSOCK);
}

int setsockopt(int descriptor, int level, int option, const void *value, socklen_t size)
{
    (void)descriptor;
    (void)level;
    (void)option;
    (void)value;
    (void)size;
    return refuse(ENOTSOCK);
}

ssize_t send(int descriptor, const void *bytes, size_t length, int flags)
{
    (void)descriptor;
    (void)bytes;
    (void)length;
    (void)flags;
    return refuse(ENOTSOCK);
}

ssize_t sendto(int descriptor, const void *bytes, size_t length, int flags, const struct sockaddr *address, socklen_t size)
{
    (void)descriptor;
    (void)bytes;
    (void)length;
    (void)flags;
    (void)address;
    (void)size;
    return refuse(ENOTSOCK);
}

ssize_t sendmsg(int descriptor, const struct msghdr *message, int flags)
{
    (void)descriptor;
    (void)message;
    (void)flags;
    return refuse(ENOTSOCK);
}

ssize_t recv(int descriptor, void *bytes, size_t length, int flags)
{
    (void)descriptor;
    (void)bytes;
    (void)length;
    (void)flags;
    return refuse(ENOTSOCK);
}

ssize_t recvfrom(int descriptor, void *restrict bytes, size_t length, int flags, struct sockaddr *restrict address,
                 socklen_t *restrict size)
{
    (void)descriptor;
    (void)bytes;
    (void)length;
    (void)flags;
    (void)address;
    (void)size;
    return refuse(ENOTSOCK);
}

ssize_t recvmsg(int descriptor, struct msghdr *message, int flags)
{
    (void)descriptor;
    (void)message;
    (void)flags;
    return refuse(ENOTSOCK);
}
