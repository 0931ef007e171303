/* Semaphores with a name, which threads of the one process share. */
#include <fcntl.h>
#include <semaphore.h>
#include <stdarg.h>
#include <stdlib.h>
#include <string.h>
#include <sys/types.h>
#include "monitor.h"

enum {
    LONGEST_NAME = 251
};

struct named {
    sem_t semaphore;
    struct named *next;
    uint32_t users;
    /* It has no name any more, and goes with its last user. */
    bool is_unlinked;
    char name[];
};

static struct named *all;

static struct named *find(const char *name)
{
    for (struct named *each = all; each; each = each->next)
        if (!each->is_unlinked && strcmp(each->name, name) == 0)
            return each;
    return NULL;
}

static void drop_unused(struct named *named)
{
    if (named->users > 0 || !named->is_unlinked)
        return;
    struct named **place = &all;
    while (*place != named)
        place = &(*place)->next;
    *place = named->next;
    free(named);
}

static struct named *make(const char *name, unsigned value)
{
    struct named *named = malloc(sizeof *named + strlen(name) + 1);
    if (!named)
        return NULL;
    *named = (struct named){.semaphore = {.value = value}, .next = all};
    strcpy(named->name, name);
    all = named;
    return named;
}

/* The code of what is wrong, or 0. */
static int open_named(const char *name, int flags, unsigned value, struct named **found)
{
    *found = find(name);
    if (*found && flags & O_CREAT && flags & O_EXCL)
        return EEXIST;
    if (!*found && !(flags & O_CREAT))
        return ENOENT;
    if (!*found && value > SEM_VALUE_MAX)
        return EINVAL;
    if (!*found)
        *found = make(name, value);
    if (!*found)
        return ENOMEM;
    (*found)->users++;
    return 0;
}

sem_t *sem_open(const char *name, int flags, ...)
{
    unsigned value = 0;
    struct named *found;
    int code = strlen(name) > LONGEST_NAME ? ENAMETOOLONG : *name == 0 || strcmp(name, "/") == 0 ? EINVAL : 0;
    if (flags & O_CREAT) {
        va_list arguments;
        va_start(arguments, flags);
        (void)va_arg(arguments, unsigned);
        value = va_arg(arguments, unsigned);
        va_end(arguments);
    }
    monitor_enter();
    if (code == 0)
        code = open_named(name + (*name == '/'), flags, value, &found);
    monitor_finish();
    if (code == 0)
        return &found->semaphore;
    errno = code;
    return SEM_FAILED;
}

int sem_close(sem_t *semaphore)
{
    struct named *named = (struct named *)semaphore;
    monitor_enter();
    named->users--;
    drop_unused(named);
    monitor_finish();
    return 0;
}

int sem_unlink(const char *name)
{
    monitor_enter();
    struct named *named = find(name + (*name == '/'));
    if (named) {
        named->is_unlinked = true;
        drop_unused(named);
    }
    monitor_finish();
    if (named)
        return 0;
    errno = ENOENT;
    return -1;
}
