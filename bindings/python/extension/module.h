/* What the files of the extension share. */
#ifndef SIZHETOM_MODULE_H
#define SIZHETOM_MODULE_H

#define PY_SSIZE_T_CLEAN
#include <Python.h>

#include "sizhetom.h"

/* What the module stores when it is imported. */
typedef struct {
    /* plistlib.UID. */
    PyObject *uid_type;
    /* sizhetom._errors.error_of, which makes the exception of a fault. */
    PyObject *error_of;
    /* sizhetom._errors.EVENT_KINDS: the name of each kind of event, by its number. */
    PyObject *event_kinds;
    /* The datetime of the start of 2001. */
    PyObject *epoch;
    /* The named tuple that events yields. */
    PyTypeObject *event_type;
    /* The type of the iterator that events returns. */
    PyTypeObject *iterator_type;
} module_state;

/* Raises the exception of a fault. */
void raise_fault(const module_state *state, const sizhetom_outcome *outcome);

#endif
