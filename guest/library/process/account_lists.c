/* The list of users and that of groups: there is one of each. */
#include <errno.h>
#include <grp.h>
#include <pwd.h>
#include <stdbool.h>
#include <stddef.h>

static bool is_user_told, is_group_told;

void setpwent(void)
{
    is_user_told = false;
}

void endpwent(void)
{
    is_user_told = false;
}

struct passwd *getpwent(void)
{
    struct passwd *entry = is_user_told ? NULL : getpwuid(0);
    is_user_told = true;
    return entry;
}

void setgrent(void)
{
    is_group_told = false;
}

void endgrent(void)
{
    is_group_told = false;
}

struct group *getgrent(void)
{
    struct group *entry = is_group_told ? NULL : getgrgid(0);
    is_group_told = true;
    return entry;
}
