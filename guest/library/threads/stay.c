/* Stays in the monitor, for Rust's library: operations on atomic objects that follow each other closely take one entry together. A stay
 * orders nothing of the program beyond what its operations do, so it gives no hints of an order. */
#include "monitor.h"

void dthreads_stay_begin(void);
void dthreads_stay_end(void);
void dthreads_stay_on(void);

/* From here on the thread leaves the monitor only to wait. Stays may nest. */
void dthreads_stay_begin(void)
{
    monitor_enter();
    lock_hold(NULL);
    monitor_leave();
}

void dthreads_stay_end(void)
{
    monitor_enter();
    lock_drop(&own, NULL);
    monitor_leave();
}

/* Ends a stay at the thread's next call of the library, which follows soon. */
void dthreads_stay_on(void)
{
    monitor_enter();
    lock_drop(&own, NULL);
    own.depth--;
    own.by_fence = own.held == 0;
    hint_leave();
}
