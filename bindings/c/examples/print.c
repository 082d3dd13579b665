/* Prints the events of a property list, one per line, as `plist_tool print` prints them for a binary
 * file. The status is 0, or 1 if the file has a fault, or 2 if it can't be read. */
#include "sizhetom.h"
#include <inttypes.h>
#include <math.h>
#include <stdio.h>
#include <stdlib.h>
#include <string.h>

/* The names of the kinds and of the faults, by their numbers. */
static const char *const kinds[] = {
    "", "StartArray", "StartDictionary", "EndCollection", "Boolean", "Data", "Date", "Integer",
    "Real", "String", "Uid", "ValueOrStartCollection", "DictionaryKeyOrEndCollection"};

static const char *const faults[] = {
    "", "UnexpectedEof", "InvalidMagic", "InvalidTrailerObjectOffsetSize",
    "InvalidTrailerObjectReferenceSize", "ObjectOffsetTooLarge", "ObjectReferenceTooLarge",
    "RecursiveObject", "NullObjectUnimplemented", "FillObjectUnimplemented", "UnknownObjectType",
    "IntegerOutOfRange", "OverflowOrNanDate", "FractionalDate", "InvalidUtf8String",
    "InvalidUtf16String", "UnclosedString", "IncompleteComment", "InvalidUtf8AsciiStream",
    "InvalidOctalString", "InvalidDateString", "UnexpectedEventType", "ExpectedEndOfEventStream",
    "UnexpectedEndOfEventStream", "Io", "OutOfMemory", "WriterFailed", "PlistTooLarge",
    "XmlUnsupported", "YearOutOfRange", "LimitReached", "NoRoom", "InvalidKind", "InvalidNumber",
    "InvalidRange", "InvalidText"};

static void print_bytes(FILE *out, const uint8_t *bytes, const sizhetom_event *event) {
    int is_string = event->kind == SIZHETOM_STRING;
    for (uint64_t i = 0; i < event->size; i++) {
        uint8_t byte = bytes[event->number + i];
        int is_plain = is_string && byte >= 0x20 && byte <= 0x7e && byte != '"' && byte != '\\';
        fprintf(out, is_plain ? "%c" : is_string ? "\\x%02x" : "%02x", byte);
    }
}

static void print_date(FILE *out, uint64_t bits) {
    double seconds;
    memcpy(&seconds, &bits, sizeof seconds);
    fprintf(out, " %" PRId64, (int64_t)floor(seconds));
    if (floor(seconds) != seconds) fprintf(out, " %016" PRIx64, bits);
}

static void print_event(FILE *out, const sizhetom_event *event, const uint8_t *bytes) {
    uint64_t number = event->number, size = event->size;
    fprintf(out, "%s%s", kinds[event->kind], event->kind == SIZHETOM_STRING ? " \"" : "");
    switch (event->kind) {
    case SIZHETOM_START_ARRAY:
    case SIZHETOM_START_DICTIONARY: if (size) fprintf(out, " %" PRIu64, number); break;
    case SIZHETOM_BOOLEAN: fprintf(out, number ? " true" : " false"); break;
    case SIZHETOM_DATE: print_date(out, number); break;
    case SIZHETOM_INTEGER:
        if (size) fprintf(out, " %" PRId64, (int64_t)number);
        else fprintf(out, " %" PRIu64, number);
        break;
    case SIZHETOM_REAL: fprintf(out, " %0*" PRIx64, (int)(2 * size), number); break;
    case SIZHETOM_DATA: fprintf(out, size ? " " : ""); print_bytes(out, bytes, event); break;
    case SIZHETOM_STRING: print_bytes(out, bytes, event); fprintf(out, "\""); break;
    case SIZHETOM_UID: fprintf(out, " %" PRIu64, number); break;
    }
    fprintf(out, "\n");
}

static void print_fault(FILE *out, const sizhetom_outcome *end) {
    fprintf(out, "Error: %s", faults[end->fault]);
    switch (end->fault) {
    case SIZHETOM_UNKNOWN_OBJECT_TYPE: fprintf(out, "(%" PRIu64 ")", end->detail); break;
    case SIZHETOM_LIMIT_REACHED: fprintf(out, end->detail ? "(Items)" : "(Depth)"); break;
    case SIZHETOM_UNEXPECTED_EVENT_TYPE:
        fprintf(out, " { expected: %s, found: %s }", kinds[end->expected], kinds[end->detail]);
        break;
    case SIZHETOM_EXPECTED_END_OF_EVENT_STREAM:
        fprintf(out, " { found: %s }", kinds[end->detail]);
        break;
    }
    if (end->has_offset) fprintf(out, " (offset %" PRIu64 ")", end->offset);
    fprintf(out, "\n");
}

/* Reads the events of an input, and prints them and the fault. The memory grows until it suffices. */
static int print_list(FILE *out, FILE *err, const uint8_t *input, size_t len) {
    const sizhetom_limits limits = {UINT64_MAX, UINT64_MAX, UINT64_MAX};
    size_t events_len = len / 2 + 64, bytes_len = 2 * len + 64;
    for (;;) {
        sizhetom_event *events = malloc(events_len * sizeof *events);
        uint8_t *bytes = malloc(bytes_len);
        if (!events || !bytes) return 2;
        sizhetom_outcome end =
            sizhetom_read_events(input, len, &limits, events, events_len, bytes, bytes_len);
        if (end.fault != SIZHETOM_NO_ROOM) {
            for (size_t i = 0; i < end.events; i++) print_event(out, &events[i], bytes);
            if (end.fault != SIZHETOM_OK) print_fault(err, &end);
        }
        free(events);
        free(bytes);
        if (end.fault != SIZHETOM_NO_ROOM) return end.fault != SIZHETOM_OK;
        if (end.detail == SIZHETOM_FULL_EVENTS) events_len *= 4;
        else bytes_len *= 4;
    }
}

int main(int argc, char **argv) {
    FILE *file = argc == 2 ? fopen(argv[1], "rb") : NULL;
    if (!file || fseek(file, 0, SEEK_END)) return 2;
    long len = ftell(file);
    uint8_t *input = len < 0 ? NULL : malloc((size_t)len + 1);
    rewind(file);
    if (!input || fread(input, 1, (size_t)len, file) != (size_t)len) return 2;
    int status = print_list(stdout, stderr, input, (size_t)len);
    free(input);
    fclose(file);
    return status;
}
