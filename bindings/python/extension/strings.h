/* Python's strings of the strings in a property list. */
#ifndef SIZHETOM_STRINGS_H
#define SIZHETOM_STRINGS_H

#define PY_SSIZE_T_CLEAN
#include <Python.h>

/* A string that was made recently, and its bytes. */
typedef struct {
    uint64_t hash;
    size_t length;
    const uint8_t *bytes;
    PyObject *string;
} made_string;

/* The strings that were made recently. A property list often has the same keys in many
 * dictionaries, and a Python string that is used again takes no time to make, and hashes once. */
typedef struct {
    made_string *made;
    size_t mask;
} made_strings;

/* Prepares for an input with this many events. Returns 0, or -1 with an exception. */
int start_strings(made_strings *strings, size_t events);

/* Returns the string of these bytes in UTF-8, which have to remain unchanged until the end. */
PyObject *string_of(made_strings *strings, const uint8_t *bytes, size_t length);

/* Forgets the strings. */
void end_strings(made_strings *strings);

#endif
