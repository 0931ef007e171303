/* Whether the program has had one thread so far. Libraries, such as that of C++, then do without atomic operations. */
#ifndef _SYS_SINGLE_THREADED_H
#define _SYS_SINGLE_THREADED_H

#ifdef __cplusplus
extern "C" {
#endif

/* Not 0 until a second thread is created, then 0. */
extern char __libc_single_threaded;

#ifdef __cplusplus
}
#endif

#endif
