/* Streams that threads keep between their calls: alone, in turns, one after the other, and at the same time. */
#include <assert.h>
#include <fcntl.h>
#include <pthread.h>
#include <sched.h>
#include <semaphore.h>
#include <stdatomic.h>
#include <stdio.h>
#include <stdlib.h>
#include <string.h>
#include <unistd.h>

enum { THREADS = 4, BYTES = 10000, LINES = 50 };

static sem_t go[2];
static FILE *shared;
static atomic_int stop;

static void run(void *(*routine)(void *), int count)
{
    pthread_t made[THREADS];
    for (long i = 0; i < count; i++)
        pthread_create(&made[i], NULL, routine, (void *)i);
    for (int i = 0; i < count; i++)
        pthread_join(made[i], NULL);
}

static FILE *filled(const char *path, int bytes)
{
    FILE *file = fopen(path, "w+");
    for (int i = 0; i < bytes; i++)
        putc('a' + i % 26, file);
    rewind(file);
    return file;
}

/* Each thread has streams of its own, one to read and one to write. */
static void *copies(void *number)
{
    char path[32], copy[32];
    snprintf(path, sizeof path, "/tmp/from%ld", (long)number);
    snprintf(copy, sizeof copy, "/tmp/to%ld", (long)number);
    FILE *from = filled(path, BYTES), *to = fopen(copy, "w+");
    int character, place = 0;
    while ((character = getc(from)) != EOF)
        putc(character, to);
    assert(feof(from) && ftell(to) == BYTES);
    rewind(to);
    for (; (character = getc(to)) != EOF; place++)
        assert(character == 'a' + place % 26);
    assert(place == BYTES);
    fclose(from);
    fclose(to);
    return NULL;
}

/* All read one stream: each byte comes once. */
static int counts[THREADS][26];

static void *shares(void *number)
{
    int character;
    while ((character = getc(shared)) != EOF)
        counts[(long)number][character - 'a']++;
    return NULL;
}

/* All write lines to one stream, each in one piece. */
static void *writes_lines(void *number)
{
    for (int i = 0; i < LINES; i++) {
        flockfile(shared);
        for (int j = 0; j < 20; j++)
            putc_unlocked('0' + (int)(long)number, shared);
        putc('\n', shared);
        funlockfile(shared);
    }
    return NULL;
}

/* Two take turns at one stream, by semaphores. */
static void *alternates(void *number)
{
    long me = (long)number;
    for (int i = 0; i < 60; i++) {
        sem_wait(&go[me]);
        int wanted = 'a' + (2 * i + (int)me) % 26;
        assert(getc(shared) == wanted);
        if (i % 3 == 0) {
            assert(ungetc(wanted, shared) == wanted && getc(shared) == wanted);
            assert(ftell(shared) == 2 * i + me + 1);
        }
        sem_post(&go[1 - me]);
    }
    return NULL;
}

/* One writes and goes on; the other flushes all streams and looks at the file, and writes behind. */
static void *flushes(void *number)
{
    if ((long)number == 1) {
        fputs("fir", shared);
        putc('s', shared);
        putc('t', shared);
        sem_post(&go[0]);
        for (int i = 0; i < 20; i++) {
            putc('?', shared);
            sched_yield();
            putc('?', shared);
        }
        sem_wait(&go[1]);
        putc('!', shared);
    } else {
        char bytes[8];
        sem_wait(&go[0]);
        fflush(NULL);
        int descriptor = open("/tmp/flushed", O_RDONLY);
        assert(read(descriptor, bytes, sizeof bytes) > 5 && memcmp(bytes, "first?", 6) == 0);
        close(descriptor);
        assert(ftrylockfile(shared) == 0);
        putc('+', shared);
        funlockfile(shared);
        sem_post(&go[1]);
    }
    return NULL;
}

/* Lives in the place of a thread that kept a stream. */
static void *spins(void *number)
{
    while (!atomic_load(&stop))
        ;
    return number;
}

/* Keeps a stream, and ends. */
static void *leaves(void *number)
{
    (void)number;
    for (int i = 0; i < 10; i++)
        assert(getc(shared) == 'a' + i);
    return NULL;
}

static void test_shared(void)
{
    shared = filled("/tmp/shared", 26 * 1000);
    run(shares, THREADS);
    for (int i = 0; i < 26; i++) {
        int sum = 0;
        for (int j = 0; j < THREADS; j++)
            sum += counts[j][i];
        assert(sum == 1000);
    }
    assert(fclose(shared) == 0);
}

static void test_lines(void)
{
    char line[32];
    int seen[THREADS] = {0};
    shared = fopen("/tmp/lines", "w+");
    run(writes_lines, THREADS);
    rewind(shared);
    while (fgets(line, sizeof line, shared)) {
        assert(strlen(line) == 21 && strspn(line, (char[]){line[0], 0}) == 20);
        seen[line[0] - '0']++;
    }
    for (int i = 0; i < THREADS; i++)
        assert(seen[i] == LINES);
    fclose(shared);
}

/* A stream's place after steps of every kind. */
static void test_places(void)
{
    fclose(filled("/tmp/shared", 26));
    FILE *file = filled("/tmp/places", 100);
    assert(getc(file) == 'a' && ungetc('a', file) == 'a' && getc(file) == 'a');
    assert(ungetc('x', file) == 'x' && ftell(file) == 0 && getc(file) == 'x' && getc(file) == 'b');
    assert(fseek(file, 10, SEEK_CUR) == 0 && getc(file) == 'm' && ftell(file) == 13);
    assert(fseek(file, 13, SEEK_SET) == 0 && putc('#', file) == '#' && putc(300, file) == 300 % 256 && ftell(file) == 15);
    assert(fseek(file, 12, SEEK_SET) == 0 && getc(file) == 'm' && getc(file) == '#' && getc(file) == 300 % 256 && getc(file) == 'p');
    assert(setvbuf(file, NULL, _IONBF, 0) == 0 && fseek(file, 0, SEEK_END) == 0 && putc('z', file) == 'z');
    int descriptor = open("/tmp/places", O_RDONLY);
    assert(lseek(descriptor, 0, SEEK_END) == 101);
    close(descriptor);
    assert(freopen("/tmp/shared", "r", file) == file && getc(file) == 'a' && putc('a', file) == EOF);
    fclose(file);
    file = fopen("/tmp/shared", "w");
    assert(getc(file) == EOF && putc('q', file) == 'q');
    fclose(file);
}

int main(void)
{
    test_places();
    run(copies, THREADS);
    test_places();
    test_shared();
    test_lines();
    sem_init(&go[0], 0, 1);
    sem_init(&go[1], 0, 0);
    shared = filled("/tmp/alternated", 200);
    run(alternates, 2);
    assert(getc(shared) == 'a' + 120 % 26);
    fclose(shared);
    sem_init(&go[0], 0, 0);
    sem_init(&go[1], 0, 0);
    shared = fopen("/tmp/flushed", "w+");
    run(flushes, 2);
    rewind(shared);
    char text[64];
    printf("%s\n", fgets(text, sizeof text, shared));
    fclose(shared);
    shared = filled("/tmp/left", 100);
    run(leaves, 1);
    pthread_t next;
    pthread_create(&next, NULL, spins, NULL);
    usleep(1000);
    assert(getc(shared) == 'k');
    atomic_store(&stop, 1);
    pthread_join(next, NULL);
    fclose(shared);
    printf("kept\n");
    return 0;
}
