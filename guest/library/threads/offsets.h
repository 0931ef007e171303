/* What assembler and C share. */
#define MONITOR_MUTEX 63
#define THREAD_STACK 0
#define THREAD_BLOCK 4
#define THREAD_WOKEN 8
#define CONTEXT_REGISTERS 32
