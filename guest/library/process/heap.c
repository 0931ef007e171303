/* Memory. Small blocks come from pages cut into blocks of one size; each thread keeps some of each size for itself, so that
 * most calls need no turn. Large blocks are whole pages. The heap grows by the machine's call. */
#include <stdlib.h>
#include <string.h>
#include <errno.h>
#include <malloc.h>
#include "../threads/monitor.h"

enum {
    HEAP_START = 0x20000000,
    SIZES = 24,
    LARGEST_SMALL = 2048,
    /* Pages of one call of the machine. */
    LONGEST_CALL = 1024,
    /* The heap grows by at least so many pages. */
    LEAST_GROWTH = 16,
    /* Bytes that a thread takes or gives back at a time. */
    BATCH_BYTES = 4096,
    /* The untouched blocks that a lone thread takes at a time: it needs no turn for others. */
    FEW = 8,
    /* A freed block of so many pages goes back to the machine, as long as less than a quarter of the heap was given. */
    RELEASED_PAGES = 64,
    /* What a page belongs to, beside the small sizes 1 to SIZES. */
    LARGE = 255,
    MAPPED = 254,
    /* What a block's bytes are, of a run with a number, when it is given and when it was freed. */
    GIVEN = 0xA5,
    FREED = 0xDB
};

static const uint16_t sizes[SIZES] = {
    16, 32, 48, 64, 80, 96, 112, 128, 160, 192, 224, 256, 320, 384, 448, 512, 640, 768, 896, 1024, 1280, 1536, 1792, 2048,
};

struct block {
    struct block *next;
};

struct list {
    struct block *first;
    struct block *last;
    uint32_t count;
};

/* The lowest blocks of fresh pages, which nobody has touched. */
struct fresh {
    char *pages;
    uint32_t count;
};

/* Free pages side by side; runs lie in the order of their addresses. */
struct run {
    struct run *next;
    uint32_t pages;
};

static __thread struct list cache[SIZES];
static struct list shared[SIZES];
static struct fresh fresh[SIZES];
static struct run *runs;
/* Pages given so far. */
static uint32_t given;
static uint8_t page_size[DTHREADS_HEAP_PAGES];
static uint16_t large_pages[DTHREADS_HEAP_PAGES];

static uint32_t page_of(const void *address)
{
    return ((uint32_t)(uintptr_t)address - HEAP_START) / DTHREADS_PAGE;
}

static void push(struct list *list, struct block *block)
{
    if (!list->first)
        list->last = block;
    block->next = list->first;
    list->first = block;
    list->count++;
}

static void append(struct list *list, struct block *block)
{
    block->next = NULL;
    if (list->first)
        list->last->next = block;
    else
        list->first = block;
    list->last = block;
    list->count++;
}

static struct block *pop(struct list *list)
{
    struct block *block = list->first;
    if (block) {
        list->first = block->next;
        list->count--;
    }
    return block;
}

/* Moves all of one list to another. */
static void move_all(struct list *from, struct list *to)
{
    if (!from->first)
        return;
    if (to->first)
        from->last->next = to->first;
    else
        to->last = from->last;
    to->first = from->first;
    to->count += from->count;
    *from = (struct list){0};
}

static void move_some(struct list *from, struct list *to, uint32_t count)
{
    for (uint32_t i = 0; i < count && from->first; i++)
        push(to, pop(from));
}

/* Pages, in the monitor. */

static void run_insert(char *address, uint32_t pages)
{
    struct run **place = &runs;
    struct run *before = NULL;
    while (*place && (char *)*place < address) {
        before = *place;
        place = &before->next;
    }
    struct run *run = (struct run *)address;
    run->pages = pages;
    run->next = *place;
    *place = run;
    if (run->next && address + (size_t)pages * DTHREADS_PAGE == (char *)run->next) {
        run->pages += run->next->pages;
        run->next = run->next->next;
    }
    if (before && (char *)before + (size_t)before->pages * DTHREADS_PAGE == address) {
        before->pages += run->pages;
        before->next = run->next;
    }
}

static bool grow_once(uint32_t pages)
{
    uint32_t address;
    if (dthreads_memory(pages, &address) != DTHREADS_DONE)
        return false;
    given += pages;
    run_insert((char *)(uintptr_t)address, pages);
    return true;
}

static bool grow(uint32_t pages)
{
    if (pages > DTHREADS_HEAP_PAGES - given)
        return false;
    uint32_t wanted = pages < LEAST_GROWTH && given + LEAST_GROWTH <= DTHREADS_HEAP_PAGES ? LEAST_GROWTH : pages;
    while (wanted > 0) {
        uint32_t part = wanted < LONGEST_CALL ? wanted : LONGEST_CALL;
        if (!grow_once(part))
            return false;
        wanted -= part;
    }
    return true;
}

static char *run_take(uint32_t pages)
{
    for (struct run **place = &runs; *place; place = &(*place)->next) {
        struct run *run = *place;
        if (run->pages < pages)
            continue;
        run->pages -= pages;
        if (run->pages == 0)
            *place = run->next;
        return (char *)run + (size_t)run->pages * DTHREADS_PAGE;
    }
    return NULL;
}

static char *pages_take(uint32_t pages)
{
    char *address = run_take(pages);
    if (!address && grow(pages))
        address = run_take(pages);
    return address;
}

static void pages_give(char *address, uint32_t pages)
{
    if (pages < RELEASED_PAGES || given >= DTHREADS_HEAP_PAGES / 4) {
        run_insert(address, pages);
        return;
    }
    while (pages > 0) {
        uint32_t part = pages < LONGEST_CALL ? pages : LONGEST_CALL;
        dthreads_release(address, part);
        address += (size_t)part * DTHREADS_PAGE;
        pages -= part;
    }
}

void *heap_pages(uint32_t pages)
{
    return pages_take(pages);
}

uint32_t heap_given(void)
{
    return given;
}

uint32_t heap_left(void)
{
    uint32_t left = DTHREADS_HEAP_PAGES - given;
    for (const struct run *run = runs; run; run = run->next)
        left += run->pages;
    return left;
}

/* Pages of mmap, which may be given back in any parts. */

void *heap_map(uint32_t pages)
{
    monitor_enter();
    char *address = pages_take(pages);
    for (uint32_t i = 0; address && i < pages; i++)
        page_size[page_of(address) + i] = MAPPED;
    if (address)
        dthreads_hint_fresh(address, pages * DTHREADS_PAGE);
    monitor_leave();
    return address;
}

static bool is_mapped(uint32_t first, uint32_t pages)
{
    if (first >= DTHREADS_HEAP_PAGES || pages > DTHREADS_HEAP_PAGES - first)
        return false;
    for (uint32_t i = 0; i < pages; i++)
        if (page_size[first + i] != MAPPED)
            return false;
    return true;
}

bool heap_unmap(void *address, uint32_t pages)
{
    uint32_t first = page_of(address);
    monitor_enter();
    bool is_range = is_mapped(first, pages);
    if (is_range) {
        memset(&page_size[first], 0, pages);
        hint_dead(address, pages * DTHREADS_PAGE);
        pages_give(address, pages);
    }
    monitor_leave();
    return is_range;
}

/* Small blocks. */

static uint32_t size_index(size_t size)
{
    uint32_t index = 0;
    while (sizes[index] < size)
        index++;
    return index;
}

static uint32_t batch(uint32_t index)
{
    uint32_t count = BATCH_BYTES / sizes[index];
    return count < 2 ? 2 : count;
}

/* Takes pages for untouched blocks; false if out of memory. */
static bool begin_pages(uint32_t index)
{
    uint32_t pages = sizes[index] > 512 ? 2 : 1;
    char *address = pages_take(pages);
    if (!address)
        return false;
    for (uint32_t i = 0; i < pages; i++)
        page_size[page_of(address) + i] = (uint8_t)(index + 1);
    fresh[index] = (struct fresh){address, pages * DTHREADS_PAGE / sizes[index]};
    return true;
}

/* Links untouched blocks, the highest first. With a number they come before those of the list. */
static void cut_some(uint32_t index, uint32_t count)
{
    for (; count > 0 && fresh[index].count > 0; count--) {
        fresh[index].count--;
        char *address = fresh[index].pages + (size_t)fresh[index].count * sizes[index];
        (varies() ? push : append)(&cache[index], (struct block *)address);
    }
}

static void refill(uint32_t index)
{
    uint32_t count = batch(index);
    monitor_enter();
    if (shared[index].first)
        move_some(&shared[index], &cache[index], count);
    else if (fresh[index].count > 0 || begin_pages(index))
        cut_some(index, alone() && !varies() && count > FEW ? FEW : count);
    monitor_leave();
}

/* The block is fresh before its link is read, which its last owner may have stored. With a number others come before those that were
 * freed. */
static void *small(size_t size)
{
    uint32_t index = size_index(size);
    bool is_varied = varies();
    if (!cache[index].first || (is_varied && cache[index].count < batch(index)))
        refill(index);
    if (cache[index].first)
        dthreads_hint_fresh(cache[index].first, sizes[index]);
    void *block = pop(&cache[index]);
    if (is_varied && block)
        memset(block, GIVEN, sizes[index]);
    return block;
}

/* The store to the block before, which another thread may have freed, is the library's own. The block is dead once its link is stored. */
static void small_free(void *address, uint32_t index)
{
    struct list *list = &cache[index];
    if (varies()) {
        memset(address, FREED, sizes[index]);
        hint_enter();
        append(list, address);
        hint_leave();
    } else {
        push(list, address);
    }
    hint_dead(address, sizes[index]);
    if (list->count < 2 * batch(index))
        return;
    monitor_enter();
    move_some(list, &shared[index], batch(index));
    monitor_leave();
}

void heap_flush(void)
{
    for (uint32_t i = 0; i < SIZES; i++)
        move_all(&cache[i], &shared[i]);
}

/* Large blocks. */

/* Pages whose address is a multiple of so many bytes, a power of two: what was taken around them goes back. */
static char *aligned_take(uint32_t pages, size_t align)
{
    uint32_t more = (uint32_t)(align / DTHREADS_PAGE) - 1;
    char *taken = pages_take(pages + more);
    if (!taken || more == 0)
        return taken;
    uint32_t before = (uint32_t)((-(uintptr_t)taken & (align - 1)) / DTHREADS_PAGE);
    char *address = taken + (size_t)before * DTHREADS_PAGE;
    if (before > 0)
        run_insert(taken, before);
    if (before < more)
        run_insert(address + (size_t)pages * DTHREADS_PAGE, more - before);
    return address;
}

static void *large(size_t size, size_t align)
{
    size_t most = (size_t)DTHREADS_HEAP_PAGES * DTHREADS_PAGE;
    if (size > most || align > most)
        return NULL;
    uint32_t pages = size == 0 ? 1 : (uint32_t)((size + DTHREADS_PAGE - 1) / DTHREADS_PAGE);
    monitor_enter();
    char *address = aligned_take(pages, align);
    if (address) {
        page_size[page_of(address)] = LARGE;
        large_pages[page_of(address)] = (uint16_t)pages;
        dthreads_hint_fresh(address, pages * DTHREADS_PAGE);
    }
    monitor_leave();
    if (address && varies())
        memset(address, GIVEN, pages * DTHREADS_PAGE);
    return address;
}

static void large_free(char *address)
{
    monitor_enter();
    uint32_t page = page_of(address);
    page_size[page] = 0;
    if (varies())
        memset(address, FREED, (size_t)large_pages[page] * DTHREADS_PAGE);
    hint_dead(address, (uint32_t)large_pages[page] * DTHREADS_PAGE);
    pages_give(address, large_pages[page]);
    monitor_leave();
}

/* The C library's functions. */

void *malloc(size_t size)
{
    void *address = size <= LARGEST_SMALL ? small(size) : large(size, DTHREADS_PAGE);
    if (!address)
        errno = ENOMEM;
    return address;
}

/* What the page of a block belongs to. An address that is no block's ends the program. */
static uint32_t kind_of(const void *address)
{
    uint32_t page = page_of(address);
    uint32_t kind = page < DTHREADS_HEAP_PAGES ? page_size[page] : 0;
    uint32_t align = kind == LARGE ? DTHREADS_PAGE : sizes[0];
    if ((kind == LARGE || (kind > 0 && kind <= SIZES)) && (uintptr_t)address % align == 0)
        return kind;
    abort();
}

static inline void block_free(void *address)
{
    uint32_t kind = kind_of(address);
    if (kind == LARGE)
        large_free(address);
    else
        small_free(address, kind - 1);
}

void free(void *address)
{
    if (!address)
        return;
    hint_called();
    block_free(address);
}

size_t malloc_usable_size(void *address)
{
    if (!address)
        return 0;
    uint32_t kind = kind_of(address);
    return kind == LARGE ? (size_t)large_pages[page_of(address)] * DTHREADS_PAGE : sizes[kind - 1];
}

void *calloc(size_t count, size_t size)
{
    size_t all;
    if (__builtin_mul_overflow(count, size, &all)) {
        errno = ENOMEM;
        return NULL;
    }
    void *address = malloc(all);
    if (address)
        memset(address, 0, all);
    return address;
}

void *heap_resize(void *address, size_t size)
{
    size_t old = malloc_usable_size(address);
    if (address && size <= old && size >= old / 2)
        return address;
    void *fresh = malloc(size);
    if (!fresh)
        return NULL;
    if (address) {
        memcpy(fresh, address, old < size ? old : size);
        block_free(address);
    }
    return fresh;
}

void *realloc(void *address, size_t size)
{
    hint_called();
    return heap_resize(address, size);
}

void *reallocarray(void *address, size_t count, size_t size)
{
    size_t all;
    if (__builtin_mul_overflow(count, size, &all)) {
        errno = ENOMEM;
        return NULL;
    }
    hint_called();
    return heap_resize(address, all);
}

/* A small block of a power of two lies at a multiple of its size, and a large one at a multiple of a page. */
void *memalign(size_t align, size_t size)
{
    size_t whole = align;
    if (align <= sizes[0] || (size > LARGEST_SMALL && align <= DTHREADS_PAGE))
        return malloc(size);
    if (align > LARGEST_SMALL) {
        void *address = large(size, align < DTHREADS_PAGE ? DTHREADS_PAGE : align);
        if (!address)
            errno = ENOMEM;
        return address;
    }
    while (whole < size)
        whole *= 2;
    return malloc(whole);
}

void *aligned_alloc(size_t align, size_t size)
{
    return memalign(align, size);
}

int posix_memalign(void **place, size_t align, size_t size)
{
    if (align < sizeof(void *) || (align & (align - 1)) != 0)
        return EINVAL;
    void *address = memalign(align, size);
    if (!address)
        return ENOMEM;
    *place = address;
    return 0;
}

void *valloc(size_t size)
{
    return memalign(DTHREADS_PAGE, size);
}
