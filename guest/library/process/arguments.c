/* What main gets if dthreads-cc was given no arguments. A program may change the array and its strings. */
static char program[] = "program";

char *dthreads_arguments[] = {program, (char *)0};
