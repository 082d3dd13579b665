/* The collections that are open while a value is written. */
#ifndef SIZHETOM_OPEN_H
#define SIZHETOM_OPEN_H

#define PY_SSIZE_T_CLEAN
#include <Python.h>

/* A list, tuple or dictionary of which only some items are written yet. */
typedef struct {
    PyObject *collection;
    /* The pairs of a dictionary that isn't exactly a dict, as a list of tuples. Otherwise NULL. */
    PyObject *pairs;
    /* Where to continue in the collection, or in the pairs. */
    Py_ssize_t next;
} open_collection;

/* The open collections, the innermost last, and a table in which to look them up. */
typedef struct {
    open_collection *stack;
    size_t count;
    size_t capacity;
    const PyObject **table;
} open_collections;

/* Opens a collection, and owns these pairs from then on. Returns 1; or 0 if the collection is open
 * already; or -1 with an exception. */
int open_inner(open_collections *open, PyObject *collection, PyObject *pairs);

/* Closes the innermost collection. */
void close_inner(open_collections *open);

/* Closes all collections, and frees the memory. */
void free_open(open_collections *open);

#endif
