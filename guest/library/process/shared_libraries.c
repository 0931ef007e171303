/* There are no shared libraries. */
#include <dlfcn.h>
#include <stddef.h>

static const char *message;

static void *refuse(void)
{
    message = "there are no shared libraries here";
    return NULL;
}

void *dlopen(const char *name, int flags)
{
    (void)name;
    (void)flags;
    return refuse();
}

void *dlsym(void *restrict library, const char *restrict name)
{
    (void)library;
    (void)name;
    return refuse();
}

int dlclose(void *library)
{
    (void)library;
    refuse();
    return -1;
}

/* A program may have a function of this name. */
#pragma weak dladdr

/* No address lies in one. */
int dladdr(const void *address, Dl_info *information)
{
    (void)address;
    (void)information;
    return 0;
}

/* Why the last call failed, once. */
char *dlerror(void)
{
    const char *last = message;
    message = NULL;
    return (char *)last;
}
