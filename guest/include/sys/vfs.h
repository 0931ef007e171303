/* Of Linux: sys/statfs.h by its older name. */
#include <sys/statfs.h>
