/* What the drivers share: many files on standard input, each after its length in four bytes (in the
 * machine's order), and the same form for what is written to standard output. */
#include <stdint.h>
#include <stdio.h>
#include <stdlib.h>

/* Reads the next file, or returns NULL at the end. */
static uint8_t *next_file(uint32_t *len) {
    if (fread(len, 4, 1, stdin) != 1) return NULL;
    uint8_t *bytes = malloc(*len + 1);
    if (!bytes || fread(bytes, 1, *len, stdin) != *len) abort();
    return bytes;
}
