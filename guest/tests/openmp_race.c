/* The sample of OpenMP with a race. */
#include "../../samples/openmp/race.c"
