/* The one user and the one group. */
#include <errno.h>
#include <grp.h>
#include <pwd.h>
#include <stddef.h>
#include <string.h>

static char root[] = "root", none[] = "", home[] = "/", *nobody[] = {NULL};

static struct passwd user = {.pw_name = root, .pw_passwd = none, .pw_comment = none, .pw_gecos = root, .pw_dir = home, .pw_shell = none};
static struct group group = {.gr_name = root, .gr_passwd = none, .gr_mem = nobody};

struct passwd *getpwuid(uid_t number)
{
    return number == 0 ? &user : NULL;
}

struct passwd *getpwnam(const char *name)
{
    return strcmp(name, root) == 0 ? &user : NULL;
}

int getpwuid_r(uid_t number, struct passwd *entry, char *room, size_t size, struct passwd **result)
{
    (void)room;
    (void)size;
    *entry = user;
    *result = number == 0 ? entry : NULL;
    return 0;
}

int getpwnam_r(const char *name, struct passwd *entry, char *room, size_t size, struct passwd **result)
{
    (void)room;
    (void)size;
    *entry = user;
    *result = getpwnam(name) ? entry : NULL;
    return 0;
}

struct group *getgrgid(gid_t number)
{
    return number == 0 ? &group : NULL;
}

struct group *getgrnam(const char *name)
{
    return strcmp(name, root) == 0 ? &group : NULL;
}

int getgrgid_r(gid_t number, struct group *entry, char *room, size_t size, struct group **result)
{
    (void)room;
    (void)size;
    *entry = group;
    *result = number == 0 ? entry : NULL;
    return 0;
}

int getgrnam_r(const char *name, struct group *entry, char *room, size_t size, struct group **result)
{
    (void)room;
    (void)size;
    *entry = group;
    *result = getgrnam(name) ? entry : NULL;
    return 0;
}
