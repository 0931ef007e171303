/* String match: which words of the input have the hash of one of some keys. Each thread has a part of the input. */
#include <pthread.h>
#include <stdio.h>
#include <string.h>

#ifndef INPUT
#define INPUT 65536
#endif
/* Whether the result is worked out again by one thread. */
#ifndef CHECK
#define CHECK 1
#endif
enum { THREADS = 4, KEYS = 4 };

static const char *const keys[KEYS] = {"thread", "memory", "token", "nowhere"};
static char text[INPUT];
static size_t length;
static int found[THREADS][KEYS];

static int is_letter(char character)
{
    return (character >= 'a' && character <= 'z') || (character >= 'A' && character <= 'Z');
}

static unsigned hash(const char *word, size_t size)
{
    unsigned value = 2166136261u;
    for (size_t i = 0; i < size; i++)
        value = (value ^ (unsigned char)word[i]) * 16777619u;
    return value;
}

static void compare(int *counts, const char *word, size_t size)
{
    unsigned value = hash(word, size);
    for (int i = 0; i < KEYS; i++)
        counts[i] += value == hash(keys[i], strlen(keys[i]));
}

/* Words that begin between two places. */
static void match(int *counts, size_t first, size_t end)
{
    for (size_t i = first; i < end; i++) {
        size_t size = 0;
        if (i > 0 && is_letter(text[i - 1]))
            continue;
        while (i + size < length && is_letter(text[i + size]))
            size++;
        if (size > 0)
            compare(counts, text + i, size);
    }
}

static void *run(void *argument)
{
    int me = *(int *)argument;
    match(found[me], length * (size_t)me / THREADS, length * ((size_t)me + 1) / THREADS);
    return NULL;
}

int main(void)
{
    pthread_t threads[THREADS];
    int numbers[THREADS], checked[KEYS] = {0}, wrong = 0;
    length = fread(text, 1, INPUT, stdin);
    for (int i = 0; i < THREADS; i++) {
        numbers[i] = i;
        pthread_create(&threads[i], NULL, run, &numbers[i]);
    }
    for (int i = 0; i < THREADS; i++)
        pthread_join(threads[i], NULL);
    match(checked, 0, CHECK ? length : 0);
    for (int key = 0; key < KEYS; key++) {
        int sum = 0;
        for (int i = 0; i < THREADS; i++)
            sum += found[i][key];
        wrong += CHECK && sum != checked[key];
        printf("%s: %d\n", keys[key], sum);
    }
    return wrong;
}
