#include <stdbool.h>
#include <stdint.h>
static uint32_t tried;
bool tried_change_is(uint32_t number) { return tried == number; }
void tried_change_set(uint32_t number) { tried = number; }
