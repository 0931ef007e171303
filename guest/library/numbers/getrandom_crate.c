/* Random numbers for Rust's crate getrandom, which asks these functions on a system that it doesn't know. A program may define its own. */
#include <stdint.h>
#include <stdlib.h>

uint32_t __getrandom_custom(unsigned char *bytes, size_t length);
uint32_t __getrandom_v03_custom(unsigned char *bytes, size_t length);

/* Versions 0.2: the result is 0, or the code of an error. */
uint32_t __getrandom_custom(unsigned char *bytes, size_t length)
{
    arc4random_buf(bytes, length);
    return 0;
}

/* Versions 0.3 and 0.4: a `Result` without a value, whose error is a number other than 0. */
uint32_t __getrandom_v03_custom(unsigned char *bytes, size_t length)
{
    return __getrandom_custom(bytes, length);
}
