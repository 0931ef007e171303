// The guests whose times tools/dt measure workers compares: THREADS threads that each do ROUNDS times what DOES says.
#include <dthreads.h>

#define SYNC 1    // call sync
#define STORE 2   // change a word of its own, and call sync
#define WORK 3    // execute WORTH instructions, and call sync
#define MUTEX 4   // add to a counter under a mutex that all have
#define BARRIER 5 // wait at a barrier for all others
#define PAGES 6   // change 2 KiB in each of 64 pages of its own, and call sync
#define READ 7    // read a word of each of 128 pages that all have, again and again for WORTH instructions, and call sync

#ifndef THREADS
#define THREADS 4
#endif
#ifndef ROUNDS
#define ROUNDS 100
#endif
#ifndef WORTH
#define WORTH 0
#endif

#define PAGE 4096
#define OWN_PAGES 64
#define READ_PAGES 128

static uint8_t stacks[THREADS][PAGE] __attribute__((aligned(16)));
static volatile uint32_t words[THREADS][PAGE / 4] __attribute__((aligned(PAGE)));
static volatile uint32_t counter;
static volatile uint32_t pages[READ_PAGES][PAGE / 4] __attribute__((aligned(PAGE)));

// WORTH instructions, but for a few: an addition and a branch again and again.
static void work(void)
{
    uint32_t left = WORTH / 2;
    __asm__ volatile("1: addi %0, %0, -1\n bnez %0, 1b" : "+r"(left));
}

// WORTH instructions, but for a few: down one column of words and then the next.
static void read_columns(void)
{
    uint32_t left = WORTH / 4;
    for (uint32_t column = 0; left; column = (column + 1) % (PAGE / 4))
        for (uint32_t page = 0; page < READ_PAGES && left; page++, left--)
            (void)pages[page][column];
}

// A word in each page, so that no two are the same page of zeros.
static void fill(void)
{
    for (uint32_t page = 0; page < READ_PAGES; page++)
        pages[page][0] = page + 1;
}

// Other bytes than in the round before, in the first half of each page.
static void change(uint32_t *own)
{
    for (uint32_t page = 0; page < OWN_PAGES; page++)
        for (uint32_t word = 0; word < PAGE / 8; word++)
            own[page * (PAGE / 4) + word] = ~own[page * (PAGE / 4) + word];
}

static void once(uint32_t index, uint32_t round, uint32_t *own)
{
    switch (DOES) {
    case STORE:
        words[index][0] = round + 1;
        break;
    case WORK:
        work();
        break;
    case MUTEX:
        dthreads_lock(0);
        counter++;
        dthreads_unlock(0);
        return;
    case BARRIER:
        dthreads_barrier(0, THREADS, 0);
        return;
    case PAGES:
        change(own);
        break;
    case READ:
        read_columns();
        break;
    }
    dthreads_sync();
}

static void thread(void *argument)
{
    uint32_t own = 0;
    if (DOES == PAGES)
        dthreads_memory(OWN_PAGES, &own);
    for (uint32_t round = 0; round < ROUNDS; round++)
        once((uint32_t)(uintptr_t)argument, round, (uint32_t *)(uintptr_t)own);
    dthreads_thread_exit(0);
}

int main(void)
{
    uint32_t numbers[THREADS];
    if (DOES == READ)
        fill();
    // Who holds a mutex keeps the token, so that all threads begin in one phase.
    dthreads_lock(1);
    for (uint32_t index = 0; index < THREADS; index++)
        dthreads_create(thread, (void *)(uintptr_t)index, stacks[index] + PAGE, &numbers[index]);
    dthreads_unlock(1);
    for (uint32_t index = 0; index < THREADS; index++)
        dthreads_join(numbers[index], 0);
    return 0;
}
