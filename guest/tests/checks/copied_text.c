/* Race inside strcpy, which two threads call for one buffer. Right: a buffer for each. */
#include "checks.h"

char texts[2][64];

static void *set(void *argument)
{
    strcpy(texts[IF_RIGHT((size_t)argument) IF_WRONG(0)], argument ? "one text" : "another text");
    return argument;
}

int main(void)
{
    pthread_t first = begun(set, NULL), second = begun(set, (void *)1);
    ended(first);
    ended(second);
}
