/* Reads and writes property lists by readers and writers that are proved.
 *
 * An input is a property list in Apple's binary form (bplist00) or in the older ASCII form. It is
 * read as events: scalars, and the starts and ends of arrays and dictionaries. A call writes them
 * into the caller's memory: one record for each event, and the bytes of all strings and data one
 * after another. Nothing that a call allocates outlives it, so the caller has nothing to free.
 *
 * A pointer and the length that follows it are those of an array. No pointer may be null, not even
 * for a length of 0. The memory of one argument may not overlap that of another. Several threads may
 * call the functions at the same time, each on memory of its own.
 *
 * The layout of these types, the numbers and the names are fixed: a later version may add others,
 * but changes none of these. */
#ifndef SIZHETOM_H
#define SIZHETOM_H

#include <stdbool.h>
#include <stddef.h>
#include <stdint.h>

#ifdef __cplusplus
extern "C" {
#endif

/* The kinds of events. No event has one of the last two: a fault names them as the kind that was
 * expected. */
enum {
    SIZHETOM_START_ARRAY = 1,
    SIZHETOM_START_DICTIONARY = 2,
    SIZHETOM_END_COLLECTION = 3,
    SIZHETOM_BOOLEAN = 4,
    SIZHETOM_DATA = 5,
    SIZHETOM_DATE = 6,
    SIZHETOM_INTEGER = 7,
    SIZHETOM_REAL = 8,
    SIZHETOM_STRING = 9,
    SIZHETOM_UID = 10,
    SIZHETOM_VALUE_OR_START_COLLECTION = 11,
    SIZHETOM_DICTIONARY_KEY_OR_END_COLLECTION = 12
};

/* The record of an event. */
typedef struct sizhetom_event {
    /* One of the kinds 1 to 10. */
    uint64_t kind;
    /* START_ARRAY, START_DICTIONARY: the number of items or pairs if size is 1, and otherwise 0.
     * END_COLLECTION: 0.
     * BOOLEAN: 0 or 1.
     * DATA, STRING: the index of the first byte in the array of bytes. A string is in UTF-8.
     * DATE: the bits of a double, the seconds since the start of 2001 in UTC.
     * INTEGER: the bits of a negative int64_t if size is 1, and otherwise a uint64_t.
     * REAL: the bits of a float if size is 4, and of a double if it is 8.
     * UID: the number. */
    uint64_t number;
    /* DATA, STRING: the number of bytes.
     * REAL: 4 or 8.
     * INTEGER: 1 if it is negative, and otherwise 0.
     * START_ARRAY, START_DICTIONARY: 1 if the length is known, as in a binary file, and otherwise 0.
     * Any other kind: 0. */
    uint64_t size;
} sizhetom_event;

/* How much is read at most. UINT64_MAX in a field means that it sets no limit. */
typedef struct sizhetom_limits {
    /* The maximum number of collections that may be open at once. */
    uint64_t depth;
    /* The maximum number of events. */
    uint64_t events;
    /* The maximum number of bytes in all strings and data. A string or data to which the input
     * refers again counts again. */
    uint64_t bytes;
} sizhetom_limits;

/* Why a call ended. The numbers 1 to 30 are the variants of the library's ErrorKind, in its order. */
enum {
    SIZHETOM_OK = 0,
    SIZHETOM_UNEXPECTED_EOF = 1,
    SIZHETOM_INVALID_MAGIC = 2,
    SIZHETOM_INVALID_TRAILER_OBJECT_OFFSET_SIZE = 3,
    SIZHETOM_INVALID_TRAILER_OBJECT_REFERENCE_SIZE = 4,
    SIZHETOM_OBJECT_OFFSET_TOO_LARGE = 5,
    SIZHETOM_OBJECT_REFERENCE_TOO_LARGE = 6,
    SIZHETOM_RECURSIVE_OBJECT = 7,
    SIZHETOM_NULL_OBJECT_UNIMPLEMENTED = 8,
    SIZHETOM_FILL_OBJECT_UNIMPLEMENTED = 9,
    SIZHETOM_UNKNOWN_OBJECT_TYPE = 10,
    SIZHETOM_INTEGER_OUT_OF_RANGE = 11,
    SIZHETOM_OVERFLOW_OR_NAN_DATE = 12,
    SIZHETOM_FRACTIONAL_DATE = 13,
    SIZHETOM_INVALID_UTF8_STRING = 14,
    SIZHETOM_INVALID_UTF16_STRING = 15,
    SIZHETOM_UNCLOSED_STRING = 16,
    SIZHETOM_INCOMPLETE_COMMENT = 17,
    SIZHETOM_INVALID_UTF8_ASCII_STREAM = 18,
    SIZHETOM_INVALID_OCTAL_STRING = 19,
    SIZHETOM_INVALID_DATE_STRING = 20,
    SIZHETOM_UNEXPECTED_EVENT_TYPE = 21,
    SIZHETOM_EXPECTED_END_OF_EVENT_STREAM = 22,
    SIZHETOM_UNEXPECTED_END_OF_EVENT_STREAM = 23,
    SIZHETOM_IO = 24, /* never returned: no call reads or writes a device */
    SIZHETOM_OUT_OF_MEMORY = 25,
    SIZHETOM_WRITER_FAILED = 26, /* never returned */
    SIZHETOM_PLIST_TOO_LARGE = 27,
    SIZHETOM_XML_UNSUPPORTED = 28,
    SIZHETOM_YEAR_OUT_OF_RANGE = 29, /* never returned */
    SIZHETOM_LIMIT_REACHED = 30,
    /* The next event or the file doesn't fit into the caller's memory, or the next event exceeds
     * limits.bytes. */
    SIZHETOM_NO_ROOM = 31,
    /* A record that is to be written has an unknown kind. */
    SIZHETOM_INVALID_KIND = 32,
    /* The number or the size of a record isn't one that sizhetom_event lists for this kind, or the
     * number of a date is that of a negative zero. */
    SIZHETOM_INVALID_NUMBER = 33,
    /* The string or data of a record doesn't lie within the array of bytes. */
    SIZHETOM_INVALID_RANGE = 34,
    /* The string of a record isn't UTF-8. */
    SIZHETOM_INVALID_TEXT = 35
};

/* The values of detail for LIMIT_REACHED: the limit that was reached. */
enum { SIZHETOM_LIMIT_DEPTH = 0, SIZHETOM_LIMIT_EVENTS = 1 };

/* The values of detail for NO_ROOM: what is full. It is the array of events, the array of bytes (for
 * the writer, that of the file), or limits.bytes. In the last case larger arrays don't help. */
enum { SIZHETOM_FULL_EVENTS = 0, SIZHETOM_FULL_BYTES = 1, SIZHETOM_FULL_LIMIT = 2 };

/* How a call ended. */
typedef struct sizhetom_outcome {
    /* Reading: how many records were stored. Writing: how many records were taken. If the fault is
     * about a record, this is its index. */
    size_t events;
    /* Reading: how many bytes of strings and data were stored. Writing: the length of the file after
     * OK and NO_ROOM, and otherwise 0. */
    size_t bytes;
    /* OK, or why the call ended early. */
    uint64_t fault;
    /* UNKNOWN_OBJECT_TYPE: the marker. LIMIT_REACHED: the limit. NO_ROOM: what is full.
     * UNEXPECTED_EVENT_TYPE, EXPECTED_END_OF_EVENT_STREAM: the kind of the event that was found.
     * Otherwise 0. */
    uint64_t detail;
    /* UNEXPECTED_EVENT_TYPE: the kind that was expected. Otherwise 0. */
    uint64_t expected;
    /* 1 if the fault has an offset in the input, and otherwise 0. */
    uint64_t has_offset;
    /* The offset of the fault in bytes, or 0. */
    uint64_t offset;
} sizhetom_outcome;

/* Reads an input that has to be exactly one value.
 *
 * The records are those of the input's events, in order. After OK the events are those of one
 * value: starts and ends match, and each key is a string. After a fault they are the events that
 * precede it, and can begin a value. If a dictionary has a key twice, both pairs are among the
 * events, and the last value is the one that counts.
 *
 * Faults:
 * - those of the input, with their offsets;
 * - UNEXPECTED_EVENT_TYPE, EXPECTED_END_OF_EVENT_STREAM and UNEXPECTED_END_OF_EVENT_STREAM if the
 *   events aren't those of one value;
 * - LIMIT_REACHED for the first event that exceeds limits.depth or limits.events;
 * - NO_ROOM for the first event that has no room;
 * - OUT_OF_MEMORY. */
sizhetom_outcome sizhetom_read(const uint8_t *input, size_t input_len,
                               const sizhetom_limits *limits,
                               sizhetom_event *events, size_t events_len,
                               uint8_t *bytes, size_t bytes_len);

/* Reads the events of an input, whatever their order. Those of a binary file are the events that
 * `plist_tool print` prints. The faults are those of sizhetom_read, without the three about the order
 * of events. */
sizhetom_outcome sizhetom_read_events(const uint8_t *input, size_t input_len,
                                      const sizhetom_limits *limits,
                                      sizhetom_event *events, size_t events_len,
                                      uint8_t *bytes, size_t bytes_len);

/* Writes a binary property list into file. The records have to be those of the events of exactly one
 * value. If shares is true, equal arrays and dictionaries are stored once. The lengths of starts are
 * ignored. If a dictionary has a key twice, both pairs are written.
 *
 * Faults, after which file is unchanged:
 * - INVALID_KIND, INVALID_NUMBER, INVALID_RANGE, INVALID_TEXT, OVERFLOW_OR_NAN_DATE,
 *   UNEXPECTED_EVENT_TYPE and EXPECTED_END_OF_EVENT_STREAM for the first record that is wrong. The
 *   field events of the outcome is its index;
 * - UNEXPECTED_END_OF_EVENT_STREAM if the records end too early;
 * - PLIST_TOO_LARGE if the file would have 2^64 bytes or more;
 * - NO_ROOM if the file is longer than file_len. The field bytes of the outcome is its length;
 * - OUT_OF_MEMORY. */
sizhetom_outcome sizhetom_write(const sizhetom_event *events, size_t events_len,
                                const uint8_t *bytes, size_t bytes_len,
                                bool shares, uint8_t *file, size_t file_len);

/* A version of the library. */
typedef struct sizhetom_number {
    uint32_t major;
    uint32_t minor;
    uint32_t patch;
} sizhetom_number;

/* Returns the version of the linked library. */
sizhetom_number sizhetom_version(void);

#ifdef __cplusplus
}
#endif

#endif
