/* syslog.h by its older name. */
#include <syslog.h>
