/* What C++ needs without its library: new and delete, and statics that are made once. */
#include <stdlib.h>
#include "../threads/monitor.h"

struct guard {
    uint8_t is_made;
    uint8_t is_begun;
};

static struct dthreads_queue guards;

void *new_one(size_t size) __asm__("_Znwj");
void *new_array(size_t size) __asm__("_Znaj");
void delete_one(void *address) __asm__("_ZdlPv");
void delete_array(void *address) __asm__("_ZdaPv");
void delete_sized(void *address, size_t size) __asm__("_ZdlPvj");
void delete_array_sized(void *address, size_t size) __asm__("_ZdaPvj");

void *new_one(size_t size)
{
    void *address = malloc(size);
    if (!address)
        abort();
    return address;
}

void *new_array(size_t size)
{
    return new_one(size);
}

void delete_one(void *address)
{
    free(address);
}

void delete_array(void *address)
{
    free(address);
}

void delete_sized(void *address, size_t size)
{
    (void)size;
    free(address);
}

void delete_array_sized(void *address, size_t size)
{
    (void)size;
    free(address);
}

void __cxa_pure_virtual(void)
{
    abort();
}

int __cxa_guard_acquire(struct guard *guard)
{
    monitor_enter();
    while (guard->is_begun && !guard->is_made)
        monitor_sleep(&guards, NEVER, false);
    bool is_first = !guard->is_made;
    guard->is_begun = 1;
    dthreads_hint_acquire(guard);
    monitor_leave();
    return is_first;
}

static void guard_end(struct guard *guard, bool is_made)
{
    monitor_enter();
    dthreads_hint_release(guard);
    guard->is_made = is_made;
    guard->is_begun = is_made;
    monitor_wake_all(&guards);
    monitor_leave();
}

void __cxa_guard_release(struct guard *guard)
{
    guard_end(guard, true);
}

void __cxa_guard_abort(struct guard *guard)
{
    guard_end(guard, false);
}
