/* Word count: how often each word stands in the input. Each thread counts a part in a table of its own and adds it to the
 * common one under a mutex. */
#include <pthread.h>
#include <stdio.h>
#include <stdlib.h>
#include <string.h>

#ifndef INPUT
#define INPUT 65536
#endif
/* Whether the result is worked out again by one thread. */
#ifndef CHECK
#define CHECK 1
#endif
enum { THREADS = 4, ROOTS = 128, LONGEST = 23, SHOWN = 5 };

struct word {
    struct word *next;
    int count;
    char text[LONGEST + 1];
};

static char text[INPUT];
static size_t length;
static struct word *common[ROOTS];
static pthread_mutex_t mutex = PTHREAD_MUTEX_INITIALIZER;

static int letter(char character)
{
    if (character >= 'A' && character <= 'Z')
        return character - 'A' + 'a';
    return character >= 'a' && character <= 'z' ? character : 0;
}

static void add(struct word **table, const char *name, int count)
{
    unsigned value = 0;
    for (const char *each = name; *each; each++)
        value = value * 31 + (unsigned char)*each;
    struct word **place = &table[value % ROOTS];
    while (*place && strcmp((*place)->text, name) != 0)
        place = &(*place)->next;
    if (!*place) {
        *place = calloc(1, sizeof **place);
        strcpy((*place)->text, name);
    }
    (*place)->count += count;
}

/* Words that begin between two places. */
static void count_words(struct word **table, size_t first, size_t end)
{
    for (size_t i = first; i < end; i++) {
        char name[LONGEST + 1] = {0};
        if (i > 0 && letter(text[i - 1]))
            continue;
        for (size_t k = 0; k < LONGEST && i + k < length && letter(text[i + k]); k++)
            name[k] = (char)letter(text[i + k]);
        if (name[0])
            add(table, name, 1);
    }
}

/* Adds one table to the common one and frees it. */
static void merge(struct word **table)
{
    for (int i = 0; i < ROOTS; i++)
        while (table[i]) {
            struct word *word = table[i];
            table[i] = word->next;
            add(common, word->text, word->count);
            free(word);
        }
}

static void *count(void *argument)
{
    int me = *(int *)argument;
    struct word *own[ROOTS] = {0};
    count_words(own, length * (size_t)me / THREADS, length * ((size_t)me + 1) / THREADS);
    pthread_mutex_lock(&mutex);
    merge(own);
    pthread_mutex_unlock(&mutex);
    return NULL;
}

/* The most frequent word that wasn't shown, the first of the alphabet among equals. */
static struct word *most_frequent(void)
{
    struct word *best = NULL;
    for (int i = 0; i < ROOTS; i++)
        for (struct word *word = common[i]; word; word = word->next)
            if (!best || word->count > best->count || (word->count == best->count && strcmp(word->text, best->text) < 0))
                best = word;
    return best;
}

static int sum_of(struct word **table)
{
    int sum = 0;
    for (int i = 0; i < ROOTS; i++)
        for (struct word *word = table[i]; word; word = word->next)
            sum += word->count;
    return sum;
}

int main(void)
{
    pthread_t threads[THREADS];
    int numbers[THREADS];
    struct word *checked[ROOTS] = {0};
    length = fread(text, 1, INPUT, stdin);
    for (int i = 0; i < THREADS; i++) {
        numbers[i] = i;
        pthread_create(&threads[i], NULL, count, &numbers[i]);
    }
    for (int i = 0; i < THREADS; i++)
        pthread_join(threads[i], NULL);
    count_words(checked, 0, CHECK ? length : 0);
    int wrong = CHECK ? sum_of(common) - sum_of(checked) : 0;
    printf("%d words\n", sum_of(common));
    for (int i = 0; i < SHOWN; i++) {
        struct word *word = most_frequent();
        if (!word)
            break;
        printf("%s: %d\n", word->text, word->count);
        word->count = 0;
    }
    return wrong != 0;
}
