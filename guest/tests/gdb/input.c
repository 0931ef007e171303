/* Adds the digits of the first line of the input. */
#include <dthreads.h>

char line[16];
int sum;

int main(void)
{
    uint32_t length;
    dthreads_read(line, sizeof line, &length);
    for (uint32_t i = 0; i < length && line[i] != '\n'; i++)
        sum += line[i] - '0';
    return sum;
}
