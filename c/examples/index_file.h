/* What the examples share: an index in memory, and how a refusal is told. */
#ifndef INDEX_FILE_H
#define INDEX_FILE_H

#include <stdbool.h>
#include <stddef.h>
#include <stdint.h>

/* A buffer from malloc. */
struct bytes {
    uint8_t *data;
    size_t length;
};

/* Reads a file of up to the library's limit. Of a longer one it takes one byte more than that, so that the library
   refuses it as too long. Answers false and leaves errno where it cannot be read; else the caller frees the data. */
bool load_file(const char *path, struct bytes *file);

/* Prints what a refusal means to standard error, with its number and place. */
void tell_refusal(const char *program, const char *path, uint64_t refusal, uint64_t place);

#endif
