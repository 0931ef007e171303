/* What a program is given besides its input. */
#include <stdio.h>
#include <stdlib.h>

int main(int count, char **arguments)
{
    char line[16] = "";
    FILE *file = fopen("/list.txt", "r");
    if (file)
        fgets(line, sizeof line, file);
    const char *who = getenv("WHO");
    return count + (who != NULL) + (arguments[0] != NULL) + line[0];
}
