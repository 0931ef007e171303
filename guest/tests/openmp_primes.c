/* The sample of OpenMP that is right. */
#include "../../samples/openmp/primes.c"
