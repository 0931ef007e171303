/* Who waits for a request may free it as soon as it is marked as done; who did it looks at it once more. */
#include "explore.h"

struct request {
    pthread_mutex_t mutex;
    atomic_bool is_done;
    int priority;
};

static void *serve(void *place)
{
    struct request *request = place;
    int priority = request->priority;
    atomic_store(&request->is_done, true);
#ifndef RIGHT
    for (int i = 0; i < 3; i++)
        sched_yield();
    priority = request->priority;
#endif
    must(priority == 3, "a request that isn't there any more");
    return NULL;
}

int main(void)
{
    struct request *request = calloc(1, sizeof *request);
    request->priority = 3;
    begin(serve, (long)request);
    while (!atomic_load(&request->is_done))
        for (int i = 0; i < 4; i++)
            sched_yield();
    free(request);
    join();
}
