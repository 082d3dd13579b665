/* Reads an input into records. */
#ifndef SIZHETOM_READING_H
#define SIZHETOM_READING_H

#include "module.h"

/* sizhetom_read or sizhetom_read_events. */
typedef sizhetom_outcome reader(const uint8_t *, size_t, const sizhetom_limits *, sizhetom_event *,
                                size_t, uint8_t *, size_t);

/* The records of an input, the bytes of its strings and data, and how the call ended. */
typedef struct {
    sizhetom_event *events;
    uint8_t *bytes;
    sizhetom_outcome outcome;
} reading;

/* Reads the bytes of an object under these limits. The fault is never that the memory is full,
 * except for limits->bytes. Returns 0, or -1 with an exception. */
int read_object(reading *read, reader *read_input, PyObject *data, const sizhetom_limits *limits);

/* Frees the memory of a reading. */
void free_reading(reading *read);

#endif
