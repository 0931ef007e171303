/* Reads what guest/dthreads-exec puts before the run's input: the texts of the arguments and the environment, and records of a
 * header, a name and bytes, up to one that ends them. It takes no memory of the heap: most programs need none for it. */
#include <stdlib.h>
#include <string.h>
#include "console.h"
#include "packed.h"

enum record {
    RECORD_END,
    RECORD_FILE,
    RECORD_WANTED,
    RECORD_SEED
};

struct header {
    uint32_t kind;
    uint32_t name;
    uint32_t bytes;
};

__attribute__((noinline)) void packed_bytes(char *place, uint32_t length)
{
    while (length > 0) {
        uint32_t got = 0;
        console_read(place, length, &got);
        if (got == 0)
            abort();
        place += got;
        length -= got;
    }
}

void packed_begin(struct packed *packed)
{
    packed_bytes((char *)packed, sizeof *packed);
}

static char *split(char *texts, uint32_t count, char **vector)
{
    for (uint32_t i = 0; i < count; i++) {
        vector[i] = texts;
        texts += strlen(texts) + 1;
    }
    vector[count] = NULL;
    return texts;
}

void packed_texts(const struct packed *packed, char *texts, char **arguments, char **variables)
{
    packed_bytes(texts, packed->bytes);
    split(split(texts, packed->arguments, arguments), packed->variables, variables);
}

static void skip(uint32_t length)
{
    char bytes[256];
    while (length > 0) {
        uint32_t part = length < sizeof bytes ? length : sizeof bytes;
        packed_bytes(bytes, part);
        length -= part;
    }
}

static void read_seed(void)
{
    uint64_t seed;
    packed_bytes((char *)&seed, sizeof seed);
    if (&random_state)
        random_state = seed;
}

/* Without the file system, files have no one to look at them. */
void packed_records(void)
{
    struct header header;
    for (;;) {
        packed_bytes((char *)&header, sizeof header);
        if (header.kind == RECORD_END)
            return;
        if (header.kind == RECORD_SEED)
            read_seed();
        else if (files_receive)
            files_receive(header.kind == RECORD_FILE, header.name, header.bytes);
        else
            skip(header.name + header.bytes);
    }
}
