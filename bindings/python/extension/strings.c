/* Python's strings of the strings in a property list, with a table of those that were made
 * recently. A string has one position in the table, so chosen keys only cost the reuse. */
#include "strings.h"

#include <string.h>

/* The longest string that is stored. */
#define LONGEST 64
/* The most entries of a table, a power of two. */
#define MOST 4096
/* An odd number without a pattern in its bits. */
#define FACTOR UINT64_C(0x9e3779b97f4a7c15)

int start_strings(made_strings *strings, size_t events)
{
    size_t entries = 1;
    while (entries < events && entries < MOST) {
        entries *= 2;
    }
    strings->mask = entries - 1;
    strings->made = PyMem_RawCalloc(entries, sizeof *strings->made);
    if (strings->made == NULL) {
        PyErr_NoMemory();
        return -1;
    }
    return 0;
}

void end_strings(made_strings *strings)
{
    if (strings->made != NULL) {
        for (size_t i = 0; i <= strings->mask; i++) {
            Py_XDECREF(strings->made[i].string);
        }
        PyMem_RawFree(strings->made);
        strings->made = NULL;
    }
}

/* Returns a hash of these bytes. */
static uint64_t hash_of(const uint8_t *bytes, size_t length)
{
    uint64_t word, hash = length;
    for (; length >= sizeof word; bytes += sizeof word, length -= sizeof word) {
        memcpy(&word, bytes, sizeof word);
        hash = (hash ^ word) * FACTOR;
        hash ^= hash >> 32;
    }
    word = 0;
    memcpy(&word, bytes, length);
    hash = (hash ^ word) * FACTOR;
    return hash ^ hash >> 32;
}

/* Tells whether an entry has the string of these bytes. */
static int has_string(const made_string *made, uint64_t hash, const uint8_t *bytes, size_t length)
{
    return made->string != NULL && made->hash == hash && made->length == length
           && memcmp(made->bytes, bytes, length) == 0;
}

PyObject *string_of(made_strings *strings, const uint8_t *bytes, size_t length)
{
    PyObject *string;
    uint64_t hash;
    made_string *made;
    if (length > LONGEST) {
        return PyUnicode_DecodeUTF8((const char *)bytes, (Py_ssize_t)length, "strict");
    }
    hash = hash_of(bytes, length);
    made = &strings->made[hash & strings->mask];
    if (has_string(made, hash, bytes, length)) {
        Py_INCREF(made->string);
        return made->string;
    }
    string = PyUnicode_DecodeUTF8((const char *)bytes, (Py_ssize_t)length, "strict");
    if (string != NULL) {
        Py_INCREF(string);
        Py_XSETREF(made->string, string);
        made->hash = hash;
        made->length = length;
        made->bytes = bytes;
    }
    return string;
}
