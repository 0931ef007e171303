/* Names of hosts and services, of which none is known. */
#include <errno.h>
#include <netdb.h>
#include <stddef.h>

int h_errno;

/* A program may have some of its own. */
#pragma weak getaddrinfo
#pragma weak freeaddrinfo
#pragma weak gai_strerror
#pragma weak getnameinfo
#pragma weak hstrerror

static void *unknown(void)
{
    errno = ENOSYS;
    h_errno = NO_RECOVERY;
    return NULL;
}

int getaddrinfo(const char *restrict host, const char *restrict service, const struct addrinfo *restrict wanted,
                struct addrinfo **restrict found)
{
    (void)host;
    (void)service;
    (void)wanted;
    *found = unknown();
    return EAI_SYSTEM;
}

void freeaddrinfo(struct addrinfo *first)
{
    (void)first;
}

const char *gai_strerror(int code)
{
    return code == EAI_SYSTEM ? "System error" : code == 0 ? "Success" : "Name or service not known";
}

int getnameinfo(const struct sockaddr *restrict address, socklen_t size, char *restrict host, socklen_t host_size,
                char *restrict service, socklen_t service_size, int flags)
{
    (void)address;
    (void)size;
    (void)host;
    (void)host_size;
    (void)service;
    (void)service_size;
    (void)flags;
    unknown();
    return EAI_SYSTEM;
}

struct hostent *gethostbyname(const char *name)
{
    (void)name;
    return unknown();
}

struct hostent *gethostbyaddr(const void *address, socklen_t size, int family)
{
    (void)address;
    (void)size;
    (void)family;
    return unknown();
}

struct servent *getservbyname(const char *name, const char *protocol)
{
    (void)name;
    (void)protocol;
    return unknown();
}

struct servent *getservbyport(int port, const char *protocol)
{
    (void)port;
    (void)protocol;
    return unknown();
}

struct protoent *getprotobyname(const char *name)
{
    (void)name;
    return unknown();
}

struct protoent *getprotobynumber(int number)
{
    (void)number;
    return unknown();
}

const char *hstrerror(int code)
{
    return code == 0 ? "Resolver Error 0 (no error)" : "Unknown server error";
}
