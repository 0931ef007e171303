/* The table of mounts: there is none. */
#include <errno.h>
#include <mntent.h>
#include <string.h>

FILE *setmntent(const char *path, const char *mode)
{
    (void)path;
    (void)mode;
    errno = ENOSYS;
    return NULL;
}

struct mntent *getmntent(FILE *stream)
{
    (void)stream;
    errno = ENOSYS;
    return NULL;
}

struct mntent *getmntent_r(FILE *stream, struct mntent *entry, char *text, int size)
{
    (void)entry;
    (void)text;
    (void)size;
    return getmntent(stream);
}

int addmntent(FILE *stream, const struct mntent *entry)
{
    (void)stream;
    (void)entry;
    errno = ENOSYS;
    return 1;
}

int endmntent(FILE *stream)
{
    (void)stream;
    return 1;
}

/* The place of an option in an entry's list. */
char *hasmntopt(const struct mntent *entry, const char *option)
{
    size_t length = strlen(option);
    for (char *place = strstr(entry->mnt_opts, option); place; place = strstr(place + 1, option))
        if ((place == entry->mnt_opts || place[-1] == ',') && (!place[length] || strchr(",=", place[length])))
            return place;
    return NULL;
}
