/* Every limit of a guest program's threads, once. */
#ifndef DTHREADS_LIMITS_H
#define DTHREADS_LIMITS_H

/* Threads of the machine in one run, thread 0 among them: so 255 can live beside it. */
#define DTHREADS_THREADS 256
/* Bytes of a page. */
#define DTHREADS_PAGE 4096
/* Pages that the heap is ever given, stacks among them: 64 MiB. Released ones count. */
#define DTHREADS_HEAP_PAGES 16384
/* Bytes of thread 0's stack: 256 KiB. */
#define DTHREADS_FIRST_STACK 262144
/* Bytes of a thread's stack where its attributes name none: 128 KiB; one page below it isn't mapped. */
#define DTHREADS_STACK 131072
/* The least stack that attributes may name. */
#ifndef PTHREAD_STACK_MIN
#define PTHREAD_STACK_MIN 8192
#endif
/* Keys of thread-specific data, and rounds of their destructors at a thread's end. */
#define PTHREAD_KEYS_MAX 128
#define PTHREAD_DESTRUCTOR_ITERATIONS 4
#define PTHREAD_THREADS_MAX 255
/* The greatest value of a semaphore. */
#define SEM_VALUE_MAX 0x7fffffff
/* Bytes of a longest write or read of the machine, and of the whole output. */
#define DTHREADS_TRANSFER 65536
#define DTHREADS_OUTPUT 16777216
/* What each operation of the library moves the clock on by, in nanoseconds: 10 microseconds. */
#define DTHREADS_OPERATION_TIME 10000
/* The clock of the day at a run's start, in seconds: 2000-01-01 00:00:00 UTC. */
#define DTHREADS_EPOCH 946684800

#endif
