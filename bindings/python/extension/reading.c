/* Reads an input into records, in memory that grows until they fit. */
#include "reading.h"

/* What a capacity is multiplied by when it was too small. The input is then read again. */
#define GROWTH 4
/* The least capacity that is allocated, unless a limit is lower. */
#define LEAST 64

/* Returns a bytes object with the bytes of an object. Bytes that aren't those of a bytes object are
 * copied, since another thread could change them during the call. */
static PyObject *bytes_of(PyObject *data)
{
    Py_buffer view;
    PyObject *copy;
    if (PyBytes_Check(data)) {
        Py_INCREF(data);
        return data;
    }
    if (PyObject_GetBuffer(data, &view, PyBUF_SIMPLE) < 0) {
        return NULL;
    }
    copy = PyBytes_FromStringAndSize(view.buf, view.len);
    PyBuffer_Release(&view);
    return copy;
}

/* Returns a capacity, or the limit if that is less. */
static size_t within(size_t capacity, uint64_t limit)
{
    return capacity < limit ? capacity : (size_t)limit;
}

/* Returns a capacity that is larger by the factor, or as large as a size can be. */
static size_t grown(size_t capacity)
{
    return capacity > SIZE_MAX / GROWTH ? SIZE_MAX : capacity * GROWTH;
}

/* Replaces memory for items of a size by memory for more of them, whose content isn't set. Returns
 * 0, or -1 with an exception. */
static int allocate(void *memory, size_t count, size_t size)
{
    void **place = memory;
    PyMem_RawFree(*place);
    *place = count > PY_SSIZE_T_MAX / size ? NULL : PyMem_RawMalloc(count * size);
    if (*place == NULL) {
        PyErr_NoMemory();
        return -1;
    }
    return 0;
}

/* Reads bytes into memory of these capacities, which grow. Returns 0, or -1 with an exception. */
static int read_bytes(reading *read, reader *read_input, PyObject *input,
                      const sizhetom_limits *limits)
{
    const uint8_t *start = (const uint8_t *)PyBytes_AS_STRING(input);
    size_t length = (size_t)PyBytes_GET_SIZE(input);
    /* Most inputs have fewer events and bytes. Memory that isn't written costs nothing. */
    size_t events = within(length / 2 + LEAST, limits->events);
    size_t bytes = within(grown(length + LEAST), limits->bytes);
    sizhetom_outcome *outcome = &read->outcome;
    if (allocate(&read->events, events, sizeof *read->events) < 0
        || allocate(&read->bytes, bytes, 1) < 0) {
        return -1;
    }
    for (;;) {
        Py_BEGIN_ALLOW_THREADS
        *outcome = read_input(start, length, limits, read->events, events, read->bytes, bytes);
        Py_END_ALLOW_THREADS
        if (outcome->fault != SIZHETOM_NO_ROOM || outcome->detail == SIZHETOM_FULL_LIMIT) {
            return 0;
        }
        if (outcome->detail == SIZHETOM_FULL_EVENTS) {
            events = within(grown(events), limits->events);
            if (allocate(&read->events, events, sizeof *read->events) < 0) {
                return -1;
            }
        } else {
            bytes = within(grown(bytes), limits->bytes);
            if (allocate(&read->bytes, bytes, 1) < 0) {
                return -1;
            }
        }
    }
}

int read_object(reading *read, reader *read_input, PyObject *data, const sizhetom_limits *limits)
{
    int result;
    PyObject *input = bytes_of(data);
    memset(read, 0, sizeof *read);
    if (input == NULL) {
        return -1;
    }
    result = read_bytes(read, read_input, input, limits);
    Py_DECREF(input);
    if (result < 0) {
        free_reading(read);
    }
    return result;
}

void free_reading(reading *read)
{
    PyMem_RawFree(read->events);
    PyMem_RawFree(read->bytes);
    read->events = NULL;
    read->bytes = NULL;
}
