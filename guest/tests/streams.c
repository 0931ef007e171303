/* The standard streams. Its input is a file of lines. */
#include <pthread.h>
#include <stdio.h>
#include <string.h>

static pthread_barrier_t barrier;
static pthread_mutex_t mutex = PTHREAD_MUTEX_INITIALIZER;
static int characters;

static void *lines(void *argument)
{
    pthread_barrier_wait(&barrier);
    for (int i = 0; i < 3; i++) {
        char text[40];
        snprintf(text, sizeof text, "%d", i);
        pthread_mutex_lock(&mutex);
        pthread_mutex_unlock(&mutex);
        printf("same line %*s|\n", 600, text);
    }
    return argument;
}

static void *reads(void *argument)
{
    int count = 0;
    while (getchar() != EOF)
        count++;
    pthread_mutex_lock(&mutex);
    characters += count;
    pthread_mutex_unlock(&mutex);
    return argument;
}

int main(void)
{
    char line[80], word[20];
    int number, other;
    pthread_t threads[4];

    if (fgets(line, sizeof line, stdin))
        printf("line %s", line);
    printf("scanned %d", scanf("%d %19s %x", &number, word, (unsigned *)&other));
    printf(" %d %s %d\n", number, word, other);
    int character = getchar();
    ungetc('!', stdin);
    printf("%d %c\n", character, getchar());
    printf("read %d %.6s\n", (int)fread(line, 2, 3, stdin), line);

    pthread_barrier_init(&barrier, NULL, 4);
    for (int i = 0; i < 4; i++)
        pthread_create(&threads[i], NULL, lines, NULL);
    for (int i = 0; i < 4; i++)
        pthread_join(threads[i], NULL);
    for (int i = 0; i < 4; i++)
        pthread_create(&threads[i], NULL, reads, NULL);
    for (int i = 0; i < 4; i++)
        pthread_join(threads[i], NULL);
    printf("rest %d, end %d\n", characters, feof(stdin) != 0);

    putchar('a');
    fputc('b', stdout);
    fputs("cd", stdout);
    fwrite("efg", 1, 3, stdout);
    puts("");
    printf("%5.2f %-4d| %04x %c %s %e %ld\n", 3.14159, 42, 0xbe, 'z', "text", 12345.678, 123456789L);
    printf("no newline");
    fflush(stdout);
    printf(", then an end\n");
    setvbuf(stdout, NULL, _IONBF, 0);
    printf("kept to the end");
    return 0;
}
