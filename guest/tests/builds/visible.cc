#if !defined _GNU_SOURCE || __GCC_ATOMIC_INT_LOCK_FREE != 2
#error
#endif
#include <sys/auxv.h>
#include <sys/resource.h>
int main() { rusage it; return getrusage(RUSAGE_SELF, &it) + (int)getauxval(1000) + 7; }
