/* ucontext.h by the name of Linux. */
#include <ucontext.h>
