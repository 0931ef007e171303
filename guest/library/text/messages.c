/* Messages of programs: there is one locale, so a message is its own translation, and there are no catalogs. */
#include <errno.h>
#include <libintl.h>
#include <locale.h>
#include <nl_types.h>
#include <stdlib.h>
#include <string.h>

#pragma GCC diagnostic ignored "-Wunused-parameter"

/* A program may have its own, by another library. */
#pragma weak gettext
#pragma weak dgettext
#pragma weak dcgettext
#pragma weak ngettext
#pragma weak dngettext
#pragma weak dcngettext
#pragma weak textdomain
#pragma weak bindtextdomain
#pragma weak bind_textdomain_codeset

char *gettext(const char *message)
{
    return (char *)message;
}

char *dgettext(const char *domain, const char *message)
{
    return (char *)message;
}

char *dcgettext(const char *domain, const char *message, int category)
{
    return (char *)message;
}

char *ngettext(const char *one, const char *many, unsigned long count)
{
    return (char *)(count == 1 ? one : many);
}

char *dngettext(const char *domain, const char *one, const char *many, unsigned long count)
{
    return ngettext(one, many, count);
}

char *dcngettext(const char *domain, const char *one, const char *many, unsigned long count, int category)
{
    return ngettext(one, many, count);
}

/* The domain that was set last, and the codeset and folder that a program asks for: they are kept nowhere else. */

char *textdomain(const char *domain)
{
    static char *last;
    if (domain) {
        free(last);
        last = *domain ? strdup(domain) : NULL;
    }
    return last ? last : (char *)"messages";
}

char *bindtextdomain(const char *domain, const char *folder)
{
    return (char *)(folder ? folder : "/usr/share/locale");
}

char *bind_textdomain_codeset(const char *domain, const char *codeset)
{
    return (char *)codeset;
}

nl_catd catopen(const char *name, int flag)
{
    errno = ENOENT;
    return (nl_catd)-1;
}

char *catgets(nl_catd catalog, int set, int number, const char *message)
{
    return (char *)message;
}

int catclose(nl_catd catalog)
{
    errno = EBADF;
    return -1;
}
