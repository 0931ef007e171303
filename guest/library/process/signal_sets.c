/* Sets of signals. */
#include "signals.h"

int sigemptyset(sigset_t *set)
{
    *set = 0;
    return 0;
}

int sigfillset(sigset_t *set)
{
    *set = ~UINT64_C(1);
    return 0;
}

int sigaddset(sigset_t *set, int signal)
{
    if (!is_signal(signal))
        return signal_result(EINVAL);
    *set |= BIT(signal);
    return 0;
}

int sigdelset(sigset_t *set, int signal)
{
    if (!is_signal(signal))
        return signal_result(EINVAL);
    *set &= ~BIT(signal);
    return 0;
}

/* Of GNU. */

int sigisemptyset(const sigset_t *set)
{
    return *set == 0;
}

int sigandset(sigset_t *set, const sigset_t *one, const sigset_t *other)
{
    *set = *one & *other;
    return 0;
}

int sigorset(sigset_t *set, const sigset_t *one, const sigset_t *other)
{
    *set = *one | *other;
    return 0;
}

int sigismember(const sigset_t *set, int signal)
{
    if (!is_signal(signal))
        return signal_result(EINVAL);
    return *set >> signal & 1;
}
