/* A stream's flags, without its lock. */
#include <stdio.h>

#undef feof
#undef ferror
#undef clearerr

int feof_unlocked(FILE *stream)
{
    return feof(stream);
}

int ferror_unlocked(FILE *stream)
{
    return ferror(stream);
}

void clearerr_unlocked(FILE *stream)
{
    clearerr(stream);
}
