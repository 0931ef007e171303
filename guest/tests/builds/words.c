#include <stdio.h>
#include <stdlib.h>
int main(int count, char **words)
{
    for (int at = 0; at < count; at++)
        printf("%s ", words[at]);
    printf("%s\n", getenv("WORD"));
    return 3;
}
