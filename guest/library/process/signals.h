/* What the parts of signal.h share. */
#ifndef SIGNALS_H
#define SIGNALS_H

#include <signal.h>
#include "../threads/monitor.h"

#define BIT(signal) (UINT64_C(1) << (signal))

bool is_signal(int signal);
/* What came with the last signal of a number. */
siginfo_t *signal_info(int signal);
/* Sends a signal to a thread, or to whichever takes it, in the monitor. */
void signal_send(struct dthreads_thread *thread, int signal, const siginfo_t *info);
/* A handler of SIGABRT. */
void signals_abort(void);

/* 0, or -1 with the code in errno. */
static inline int signal_result(int code)
{
    if (code == 0)
        return 0;
    errno = code;
    return -1;
}

#endif
