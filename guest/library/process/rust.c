/* What a program in Rust without std lacks: Rust's core, which is compiled for panics that unwind, names the function that finds
 * what to do in a frame. Such a program has none to be found. */
#include <stdlib.h>

void rust_eh_personality(void);

void rust_eh_personality(void)
{
    abort();
}
