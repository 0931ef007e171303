/* stdout over a file in the place of the run's output: its text is kept in a buffer, as on Linux, and stays whole with threads. */
#include <assert.h>
#include <fcntl.h>
#include <pthread.h>
#include <stdio.h>
#include <string.h>
#include <sys/stat.h>
#include <unistd.h>

enum { THREADS = 3, LINES = 400 };

static char text[65536];
static int console, file;

/* How many bytes the file has. */
static int size(void)
{
    struct stat status;
    fstat(file, &status);
    return (int)status.st_size;
}

static void go_to(int descriptor)
{
    fflush(stdout);
    dup2(descriptor, STDOUT_FILENO);
}

static void *write_lines(void *name)
{
    for (int i = 0; i < LINES; i++)
        if (i % 2)
            printf("%s has line %d\n", (char *)name, i);
        else
            fputs("a line of all\n", stdout);
    return NULL;
}

/* How often a line is in the text. */
static int count(const char *line)
{
    int found = 0;
    for (const char *place = text; (place = strstr(place, line)); place++)
        found += place == text || place[-1] == '\n';
    return found;
}

static void by_threads(void)
{
    static char names[THREADS][2] = {"a", "b", "c"};
    pthread_t made[THREADS];
    go_to(file);
    ftruncate(file, 0);
    lseek(file, 0, SEEK_SET);
    for (int i = 0; i < THREADS; i++)
        pthread_create(&made[i], NULL, write_lines, names[i]);
    for (int i = 0; i < THREADS; i++)
        pthread_join(made[i], NULL);
    go_to(console);
    text[pread(file, text, sizeof text - 1, 0)] = 0;
    printf("%d lines of all", count("a line of all\n"));
    for (int i = 1; i < LINES; i += 2)
        for (int j = 0; j < THREADS; j++) {
            char line[32];
            sprintf(line, "%s has line %d\n", names[j], i);
            assert(count(line) == 1);
        }
    puts(", and each other one once");
}

int main(void)
{
    FILE *stream = fopen("/tmp/redirected", "w+");
    file = fileno(stream);
    console = dup(STDOUT_FILENO);
    puts("before");
    go_to(file);
    printf("one %d\n", 1);
    puts("two");
    putchar('3');
    putchar('\n');
    fputs("four\n", stdout);
    fwrite("five\n", 1, 5, stdout);
    int early = size();
    fflush(stdout);
    int late = size();
    go_to(console);
    text[pread(file, text, sizeof text - 1, 0)] = 0;
    printf("%d bytes, then %d: %s", early, late, text);
    go_to(file);
    setvbuf(stdout, NULL, _IOLBF, 0);
    printf("six\nseven");
    early = size() - late;
    go_to(console);
    printf("%d bytes, then %d\n", early, size() - late);
    by_threads();
    go_to(file);
    printf("the end");
    assert(fclose(stdout) == 0);
    dprintf(console, "closed with %d bytes more\n", size() - (int)strlen(text));
    return 0;
}
