/* Linear search, and elements in a chain. */
#include <search.h>
#include <string.h>

struct element {
    struct element *next;
    struct element *previous;
};

void insque(void *place, void *after)
{
    struct element *element = place, *before = after;
    element->previous = before;
    element->next = before ? before->next : NULL;
    if (element->next)
        element->next->previous = element;
    if (before)
        before->next = element;
}

void remque(void *place)
{
    struct element *element = place;
    if (element->next)
        element->next->previous = element->previous;
    if (element->previous)
        element->previous->next = element->next;
}

void *lfind(const void *key, const void *base, size_t *count, size_t size, int (*compare)(const void *, const void *))
{
    const char *each = base;
    for (size_t i = 0; i < *count; i++, each += size)
        if (compare(key, each) == 0)
            return (void *)each;
    return NULL;
}

void *lsearch(const void *key, void *base, size_t *count, size_t size, int (*compare)(const void *, const void *))
{
    void *found = lfind(key, base, count, size, compare);
    return found ? found : memcpy((char *)base + (*count)++ * size, key, size);
}
