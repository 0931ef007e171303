/* Whether a name is there is asked in one section, and it is added in another one. */
#include "explore.h"

static pthread_mutex_t mutex = PTHREAD_MUTEX_INITIALIZER;
static int names[MOST], count;

static bool is_there(int name)
{
    for (int i = 0; i < count; i++)
        if (names[i] == name)
            return true;
    return false;
}

static void *add(void *name)
{
    lock(&mutex);
    bool is_known = is_there((int)(long)name);
#ifndef RIGHT
    unlock(&mutex);
    lock(&mutex);
#endif
    if (!is_known)
        names[count++] = (int)(long)name;
    unlock(&mutex);
    return NULL;
}

int main(void)
{
    begin(add, 7);
    begin(add, 7);
    join();
    must(count == 1, "one name twice");
}
