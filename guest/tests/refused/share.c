#include <sys/mman.h>
#include <fcntl.h>
int shm_open(const char *, int, int);
int main(void) { return shm_open("/name", O_RDWR, 0); }
