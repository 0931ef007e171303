/* Where errno lies, as a function: compilers of other languages can't name a thread-local object of C. */
#include <errno.h>

int *__errno(void);

int *__errno(void)
{
    return &errno;
}
