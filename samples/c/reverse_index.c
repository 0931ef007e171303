/* Reverse index: lines of the input are a page and the pages that it names; the index has for each named page those that name
 * it. Threads take the next lines under a mutex, each makes an index of its own, and puts it into the common one at its end. */
#include <pthread.h>
#include <stdio.h>
#include <stdlib.h>
#include <string.h>

#ifndef LINES
#define LINES 512
#endif
enum { THREADS = 4, LONGEST = 256, NAME = 32, PIECE = 4 };

struct source {
    struct source *next;
    char name[NAME];
};

struct entry {
    struct entry *next;
    struct source *sources;
    char name[NAME];
};

static char lines[LINES][LONGEST];
static int line_count, next_line;
static struct entry *common;
static int links;
static pthread_mutex_t line_mutex = PTHREAD_MUTEX_INITIALIZER;
static pthread_mutex_t index_mutex = PTHREAD_MUTEX_INITIALIZER;

/* The first of the next lines. */
static int take_lines(void)
{
    pthread_mutex_lock(&line_mutex);
    int line = next_line;
    next_line += PIECE;
    pthread_mutex_unlock(&line_mutex);
    return line;
}

/* The entry of a name; entries are in the order of their names. */
static struct entry *entry_of(struct entry **index, const char *name)
{
    struct entry **place = index;
    while (*place && strcmp((*place)->name, name) < 0)
        place = &(*place)->next;
    if (*place && strcmp((*place)->name, name) == 0)
        return *place;
    struct entry *entry = calloc(1, sizeof *entry);
    strcpy(entry->name, name);
    entry->next = *place;
    *place = entry;
    return entry;
}

static void add_source(struct entry *entry, struct source *source)
{
    struct source **place = &entry->sources;
    while (*place && strcmp((*place)->name, source->name) < 0)
        place = &(*place)->next;
    source->next = *place;
    *place = source;
}

/* Puts ordered sources among those of an entry. */
static void merge_sources(struct entry *entry, struct source *sources)
{
    struct source **place = &entry->sources;
    while (sources) {
        struct source *source = sources;
        while (*place && strcmp((*place)->name, source->name) < 0)
            place = &(*place)->next;
        sources = source->next;
        source->next = *place;
        *place = source;
        place = &source->next;
    }
}

/* Copies the next name of a line; the rest of the line, or NULL at its end. */
static const char *next_name(const char *line, char *name)
{
    size_t size = strcspn(line += strspn(line, " \n"), " \n");
    if (size == 0)
        return NULL;
    size_t kept = size < NAME ? size : NAME - 1;
    memcpy(name, line, kept);
    name[kept] = 0;
    return line + size;
}

/* Adds a line's links to an index; how many there were. */
static int index_line(struct entry **index, const char *line)
{
    char page[NAME], named[NAME];
    int count = 0;
    line = next_name(line, page);
    while (line && (line = next_name(line, named))) {
        struct source *source = malloc(sizeof *source);
        strcpy(source->name, page);
        add_source(entry_of(index, named), source);
        count++;
    }
    return count;
}

static void merge(struct entry *index, int count)
{
    pthread_mutex_lock(&index_mutex);
    for (struct entry *entry = index; entry; entry = entry->next)
        merge_sources(entry_of(&common, entry->name), entry->sources);
    links += count;
    pthread_mutex_unlock(&index_mutex);
}

static void *run(void *argument)
{
    struct entry *own = NULL;
    int count = 0;
    for (int line = take_lines(); line < line_count; line = take_lines())
        for (int i = line; i < line + PIECE && i < line_count; i++)
            count += index_line(&own, lines[i]);
    merge(own, count);
    return argument;
}

int main(void)
{
    pthread_t threads[THREADS];
    int count = 0;
    while (line_count < LINES && fgets(lines[line_count], LONGEST, stdin))
        line_count++;
    for (int i = 0; i < THREADS; i++)
        pthread_create(&threads[i], NULL, run, NULL);
    for (int i = 0; i < THREADS; i++)
        pthread_join(threads[i], NULL);
    for (struct entry *entry = common; entry; entry = entry->next) {
        printf("%s:", entry->name);
        for (struct source *source = entry->sources; source; source = source->next) {
            printf(" %s", source->name);
            count++;
        }
        printf("\n");
    }
    printf("%d links, %s\n", links, links == count ? "all there" : "some lost");
    return links != count;
}
