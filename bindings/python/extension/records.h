/* Turns Python's values into records. */
#ifndef SIZHETOM_RECORDS_H
#define SIZHETOM_RECORDS_H

#include "module.h"
#include "open.h"

/* The records of a value, and the bytes of its strings and data. */
typedef struct {
    sizhetom_event *events;
    size_t count;
    size_t capacity;
    uint8_t *bytes;
    size_t length;
    size_t room;
    open_collections open;
} records;

/* Stores the records of a value. Returns 0, or -1 with an exception. */
int store_value(const module_state *state, records *stored, PyObject *value);

/* Frees the memory of these records. */
void free_records(records *stored);

#endif
