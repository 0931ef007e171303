/* What guest/dthreads-exec puts before the run's input: docs/C-REFERENCE.md has the form. */
#ifndef PACKED_H
#define PACKED_H

#include <stdint.h>
#include "../names.h"

/* What comes first: how many arguments and variables there are, and the bytes of their texts, each with the zero at its end. */
struct packed {
    uint32_t arguments;
    uint32_t variables;
    uint32_t bytes;
};

void packed_begin(struct packed *packed);
/* Fills the vectors of the arguments and the variables, each of which gets NULL at its end; `texts` has room for the bytes. */
void packed_texts(const struct packed *packed, char *texts, char **arguments, char **variables);
/* Reads the records behind the texts. */
void packed_records(void);
/* Reads so many bytes, or ends the run if there are fewer. */
void packed_bytes(char *place, uint32_t length);

#endif
