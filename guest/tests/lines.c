/* Lines of any length, streams into memory, printf to a descriptor, and an end without the functions of atexit. */
#define _GNU_SOURCE
#include <stdio.h>
#include <stdlib.h>
#include <string.h>
#include <unistd.h>

static void first(void)
{
    write(1, "first\n", 6);
}

static void second(void)
{
    write(1, "second\n", 7);
}

static void never(void)
{
    write(1, "never\n", 6);
}

int main(void)
{
    char *line = NULL, *text;
    size_t room = 0, size, sum = 0;
    ssize_t length;
    while ((length = getline(&line, &room, stdin)) > 0 && sum < 400) {
        sum += (size_t)length;
        printf("%zd %d\n", length, room > (size_t)length);
    }
    printf("%s", line);
    length = getdelim(&line, &room, ';', stdin);
    printf("%zd %s\n", length, line);
    length = getdelim(&line, &room, ';', stdin);
    printf("%zd %s %d\n", length, line, feof(stdin) != 0);
    printf("%zd\n", getline(&line, &room, stdin));
    free(line);

    FILE *stream = open_memstream(&text, &size);
    for (int i = 0; i < 100; i++)
        fprintf(stream, "%d,", i);
    fflush(stream);
    printf("%zu %.10s\n", size, text);
    fputs("end", stream);
    fclose(stream);
    printf("%zu %s\n", size, text + size - 9);
    free(text);
    stream = open_memstream(&text, &size);
    fclose(stream);
    printf("%zu '%s'\n", size, text);
    free(text);
    fflush(stdout);
    dprintf(STDOUT_FILENO, "%s %d\n", "to a descriptor", 7);
    atexit(never);
    at_quick_exit(second);
    at_quick_exit(first);
    quick_exit(5);
}
