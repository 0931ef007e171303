#include <stdio.h>
#include <time.h>
int main(void) { time_t now = time(NULL); return printf("%s", asctime(gmtime(&now))) < 0; }
