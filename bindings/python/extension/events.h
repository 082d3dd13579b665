/* The iterator over events. */
#ifndef SIZHETOM_EVENTS_H
#define SIZHETOM_EVENTS_H

#include "reading.h"

/* Adds the types Event and the iterator to the module. Returns 0, or -1 with an exception. */
int add_event_types(PyObject *module, module_state *state);

/* Returns an iterator over the events of a reading, which it frees. */
PyObject *iterator_of(module_state *state, reading *read);

#endif
