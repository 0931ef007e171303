/* The headers and macros that programs ask for, together in one file; sys/types.h has the types of pthread.h. */
#include <sys/types.h>

static pthread_t thread;
static pthread_mutex_t mutex;
static pthread_once_t once;
static pthread_attr_t attributes;

#include <limits.h>
#include <unistd.h>
#include <time.h>
#include <stdlib.h>
#include <sched.h>
#include <pthread.h>
#include <signal.h>
#include <setjmp.h>
#include <stdio.h>
#include <wchar.h>
#include <uchar.h>
#include <features.h>
#include <sys/utsname.h>
#include <sys/ioctl.h>
#include <termios.h>
#include <dlfcn.h>
#include <sys/socket.h>
#include <netinet/in.h>
#include <arpa/inet.h>
#include <search.h>
#include <glob.h>
#include <syslog.h>
#include <error.h>
#include <sys/sysinfo.h>
#include <sys/time.h>
#include <sys/times.h>
#include <sys/resource.h>
#include <sys/stat.h>
#include <sys/mman.h>
#include <sys/wait.h>
#include <sys/param.h>
#include <fcntl.h>
#include <poll.h>
#include <dirent.h>
#include <semaphore.h>
#include <threads.h>
#include <stdatomic.h>
#include <sys/select.h>
#include <utime.h>
#include <pwd.h>
#include <grp.h>
#include <strings.h>
#include <libgen.h>
#include <regex.h>
#include <fnmatch.h>
#include <langinfo.h>
#include <iconv.h>
#include <sys/uio.h>

#ifndef __unix__
#error "no __unix__"
#endif

static sigjmp_buf place;

int main(void)
{
    mutex = (pthread_mutex_t)PTHREAD_MUTEX_INITIALIZER;
    thread = pthread_self();
    pthread_attr_init(&attributes);
    printf("%d %d\n", sigsetjmp(place, 1), pthread_mutex_trylock(&mutex) == 0 && pthread_equal(thread, pthread_self()) && sizeof once > 0);
    printf("%ld %ld %d %d %d\n", (long)SSIZE_MAX, (long)_POSIX_VERSION, TIME_UTC, FILENAME_MAX > 1000, FOPEN_MAX > 10);
    return 0;
}
