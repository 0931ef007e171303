/* What guest/dthreads-exec brings and takes: arguments, environment, files, the standard streams. */
#include <stdio.h>
#include <stdlib.h>
#include <string.h>
#include <unistd.h>

extern char **environ;

static void copy(const char *from, const char *to)
{
    char line[100];
    FILE *in = fopen(from, "r"), *out = fopen(to, "w");
    if (!in || !out) {
        fprintf(stderr, "%s: %s\n", from, in ? "can't be written" : "isn't there");
        return;
    }
    while (fgets(line, sizeof line, in))
        fprintf(out, "copied: %s", line);
    fclose(in);
    fclose(out);
}

int main(int count, char **arguments, char **environment)
{
    int character, length = 0;
    unsigned char bytes[4];
    for (int i = 0; i < count; i++)
        printf("argument %d: %s\n", i, arguments[i]);
    printf("ends %d\n", arguments[count] == NULL);
    for (int i = 0; environment[i]; i++)
        printf("variable: %s\n", environment[i]);
    const char *value = getenv("NAME");
    printf("NAME is %s, same %d\n", value ? value : "unset", environ == environment);
    fprintf(stderr, "to the error stream\n");
    write(2, "by a descriptor\n", 16);
    copy("/data/in/one.txt", "two.txt");
    copy("/none", "three.txt");
    while ((character = getchar()) != EOF)
        length += character == 'x';
    printf("input has %d x\n", length);
    getentropy(bytes, sizeof bytes);
    printf("random %02x%02x%02x%02x\n", bytes[0], bytes[1], bytes[2], bytes[3]);
    printf("a long text %2000s|\n", "");
    for (int i = 1; i < count; i++)
        if (strcmp(arguments[i], "--fail") == 0)
            return 7;
    return 0;
}
