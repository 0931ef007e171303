#include <unistd.h>
int main(int count, char **words) { return count > 1 && (fork() || fork() || execv(words[1], words)); }
