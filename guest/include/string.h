/* The C library's page, without two functions that POSIX and GNU don't have. */
#define strlwr dthreads_hidden_strlwr
#define strupr dthreads_hidden_strupr
#include_next <string.h>
#undef strlwr
#undef strupr
