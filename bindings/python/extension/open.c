/* The collections that are open while a value is written: a stack, and a table of their addresses,
 * by which a collection that contains itself is found. */
#include "open.h"

#define LEAST 64
/* An odd number without a pattern in its bits. */
#define FACTOR UINT64_C(0x9e3779b97f4a7c15)

/* Returns the number of entries of the table, a power of two. At most half of them are used. */
static size_t entries_of(const open_collections *open)
{
    return 2 * open->capacity;
}

/* Returns the entry with this address, or the free entry for it, which is the first one from the
 * entry on that the hash names. */
static const PyObject **entry_of(const open_collections *open, const PyObject *collection)
{
    size_t mask = entries_of(open) - 1;
    size_t index = (uint64_t)(uintptr_t)collection * FACTOR >> 32 & mask;
    while (open->table[index] != NULL && open->table[index] != collection) {
        index = (index + 1) & mask;
    }
    return &open->table[index];
}

/* Doubles the capacity. Returns 0, or -1 with an exception. */
static int grow(open_collections *open)
{
    size_t capacity = open->capacity == 0 ? LEAST : 2 * open->capacity;
    open_collection *stack = PyMem_RawRealloc(open->stack, capacity * sizeof *stack);
    if (stack != NULL) {
        open->stack = stack;
    }
    const PyObject **table = PyMem_RawCalloc(2 * capacity, sizeof *table);
    if (stack == NULL || table == NULL) {
        PyMem_RawFree(table);
        PyErr_NoMemory();
        return -1;
    }
    PyMem_RawFree(open->table);
    open->table = table;
    open->capacity = capacity;
    for (size_t i = 0; i < open->count; i++) {
        *entry_of(open, stack[i].collection) = stack[i].collection;
    }
    return 0;
}

int open_inner(open_collections *open, PyObject *collection, PyObject *pairs)
{
    const PyObject **entry;
    if (open->count == open->capacity && grow(open) < 0) {
        Py_XDECREF(pairs);
        return -1;
    }
    entry = entry_of(open, collection);
    if (*entry != NULL) {
        Py_XDECREF(pairs);
        return 0;
    }
    Py_INCREF(collection);
    *entry = collection;
    open->stack[open->count++] = (open_collection){.collection = collection, .pairs = pairs};
    return 1;
}

void close_inner(open_collections *open)
{
    open_collection *inner = &open->stack[--open->count];
    /* It was added last, so no other address lies behind its entry, which can be cleared. */
    *entry_of(open, inner->collection) = NULL;
    Py_DECREF(inner->collection);
    Py_XDECREF(inner->pairs);
}

void free_open(open_collections *open)
{
    while (open->count > 0) {
        close_inner(open);
    }
    PyMem_RawFree(open->stack);
    PyMem_RawFree(open->table);
}
