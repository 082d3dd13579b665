/* Calls the functions of sizhetom.h with many files, with unreadable pages around each array, and
 * with random limits and capacities, 0 among them. A call has to end at exactly the first event that
 * exceeds a limit or has no room, with the records of a call that has room for all. The writer also
 * gets wrong records, which it has to refuse by their number and index.
 *
 * Usage: guarded SEED      Prints how many calls were made. The status is 1 if one is wrong. */
#include "sizhetom.h"
#include "pack.h"
#include <inttypes.h>
#include <string.h>
#include <sys/mman.h>
#include <unistd.h>

enum { TRIALS = 6, MOST_EVENTS = 1 << 15, MOST_BYTES = 1 << 20, PATTERN = 0xa5, EDGE = 512 };

typedef sizhetom_outcome reader(const uint8_t *, size_t, const sizhetom_limits *, sizhetom_event *,
                                size_t, uint8_t *, size_t);

static const sizhetom_limits no_limits = {UINT64_MAX, UINT64_MAX, UINT64_MAX};
static uint64_t calls, state;
static const uint8_t *file_now;
static uint32_t file_len;

static uint64_t some(uint64_t below) {
    state ^= state << 13, state ^= state >> 7, state ^= state << 17;
    return below ? state % below : 0;
}

static void require(bool is_right, const char *what) {
    if (is_right) return;
    printf("%s: ", what);
    for (uint32_t i = 0; i < file_len; i++) printf("%02x", file_now[i]);
    printf("\n");
    exit(1);
}

/* ---- arrays between unreadable pages */

typedef struct { uint8_t *start, *end; } region;
typedef struct { region in; uint8_t *bytes; size_t len; } array;

static region mapped(size_t len) {
    size_t page = (size_t)sysconf(_SC_PAGESIZE), inner = (len + page - 1) / page * page;
    uint8_t *all = mmap(NULL, inner + 2 * page, PROT_NONE, MAP_PRIVATE | MAP_ANONYMOUS, -1, 0);
    if (all == MAP_FAILED || mprotect(all + page, inner, PROT_READ | PROT_WRITE)) abort();
    return (region){all + page, all + page + inner};
}

/* Returns an array at the start or the end of a region, and marks the bytes beside it. */
static array placed(region in, size_t len, const void *content) {
    uint8_t *bytes = some(2) ? in.start : in.end - len;
    uint8_t *from = bytes - EDGE < in.start ? in.start : bytes - EDGE;
    uint8_t *to = bytes + len + EDGE > in.end ? in.end : bytes + len + EDGE;
    memset(from, PATTERN, (size_t)(to - from));
    if (content) memcpy(bytes, content, len);
    return (array){in, bytes, len};
}

static bool has_pattern(const uint8_t *from, const uint8_t *to) {
    while (from < to) if (*from++ != PATTERN) return false;
    return true;
}

/* Returns whether the bytes beside an array are as they were. */
static bool is_alone(array a) {
    uint8_t *end = a.bytes + a.len;
    uint8_t *from = a.bytes - EDGE < a.in.start ? a.in.start : a.bytes - EDGE;
    return has_pattern(from, a.bytes) && has_pattern(end, end + EDGE > a.in.end ? a.in.end : end + EDGE);
}

static region inputs, records, contents, files;

/* ---- reading */

typedef struct {
    sizhetom_event events[MOST_EVENTS];
    uint8_t bytes[MOST_BYTES];
    sizhetom_outcome end;
} result;

static bool is_start(uint64_t kind) {
    return kind == SIZHETOM_START_ARRAY || kind == SIZHETOM_START_DICTIONARY;
}

static bool has_bytes(const sizhetom_event *event) {
    return event->kind == SIZHETOM_DATA || event->kind == SIZHETOM_STRING;
}

static sizhetom_outcome stopped(size_t events, size_t bytes, uint64_t fault, uint64_t detail) {
    return (sizhetom_outcome){events, bytes, fault, detail, 0, 0, 0};
}

/* Returns whether an event of this kind exceeds the limits, and which one. */
static bool is_beyond(const sizhetom_limits *limits, size_t index, size_t open, uint64_t kind,
                      uint64_t *limit) {
    *limit = index >= limits->events ? SIZHETOM_LIMIT_EVENTS : SIZHETOM_LIMIT_DEPTH;
    return index >= limits->events || (is_start(kind) && open >= limits->depth);
}

/* Returns how a call ends under these limits, for these capacities, if `all` is the result of a call
 * without limits and with room for all. */
static sizhetom_outcome expected(const result *all, const sizhetom_limits *limits, size_t events_len,
                                 size_t bytes_len) {
    size_t i, used = 0, open = 0;
    uint64_t limit;
    for (i = 0; i < all->end.events; i++) {
        const sizhetom_event *event = &all->events[i];
        if (is_beyond(limits, i, open, event->kind, &limit))
            return stopped(i, used, SIZHETOM_LIMIT_REACHED, limit);
        if (i >= events_len) return stopped(i, used, SIZHETOM_NO_ROOM, SIZHETOM_FULL_EVENTS);
        if (has_bytes(event)) {
            if (used + event->size > limits->bytes)
                return stopped(i, used, SIZHETOM_NO_ROOM, SIZHETOM_FULL_LIMIT);
            if (used + event->size > bytes_len)
                return stopped(i, used, SIZHETOM_NO_ROOM, SIZHETOM_FULL_BYTES);
            used += event->size;
        }
        open += is_start(event->kind);
        open -= event->kind == SIZHETOM_END_COLLECTION && open;
    }
    /* An event that can't come next counts for the limits, too. */
    if ((all->end.fault == SIZHETOM_UNEXPECTED_EVENT_TYPE
         || all->end.fault == SIZHETOM_EXPECTED_END_OF_EVENT_STREAM)
        && is_beyond(limits, i, open, all->end.detail, &limit))
        return stopped(i, used, SIZHETOM_LIMIT_REACHED, limit);
    return all->end;
}

/* Reads the file with these capacities, and compares what is stored with what is expected. */
static void try_read(reader *read, const result *all, const sizhetom_limits *limits,
                     size_t events_len, size_t bytes_len) {
    array input = placed(inputs, file_len, file_now);
    array events = placed(records, events_len * sizeof(sizhetom_event), NULL);
    array bytes = placed(contents, bytes_len, NULL);
    sizhetom_outcome wanted = expected(all, limits, events_len, bytes_len);
    sizhetom_outcome end = read(input.bytes, input.len, limits, (sizhetom_event *)events.bytes,
                                events_len, bytes.bytes, bytes_len);
    calls++;
    require(!memcmp(&end, &wanted, sizeof end), "a call ends otherwise");
    require(!memcmp(events.bytes, all->events, end.events * sizeof(sizhetom_event)), "records differ");
    require(!memcmp(bytes.bytes, all->bytes, end.bytes), "bytes differ");
    require(is_alone(input) && is_alone(events) && is_alone(bytes), "bytes beside an array changed");
    require(!memcmp(input.bytes, file_now, file_len), "the input changed");
}

static uint64_t some_limit(uint64_t near) {
    return some(2) ? UINT64_MAX : some(3) ? some(near + 2) : 0;
}

static void read_often(reader *read, result *all) {
    all->end = read(file_now, file_len, &no_limits, all->events, MOST_EVENTS, all->bytes, MOST_BYTES);
    calls++;
    require(all->end.fault != SIZHETOM_NO_ROOM, "a file is too large for this test");
    size_t events = all->end.events, bytes = all->end.bytes;
    try_read(read, all, &no_limits, events, bytes);
    try_read(read, all, &no_limits, 0, 0);
    for (int i = 0; i < TRIALS; i++) {
        sizhetom_limits limits = {some_limit(8), some_limit(events), some_limit(bytes)};
        try_read(read, all, some(2) ? &limits : &no_limits, some(3) ? some(events + 2) : events,
                 some(3) ? some(bytes + 2) : bytes);
    }
}

/* ---- writing */

/* Records to write, with their bytes. */
typedef struct { const sizhetom_event *events; size_t count; const uint8_t *bytes; size_t len; bool shares; } list;

/* Writes records into a file with this capacity, and requires that it ends as wanted, after OK with
 * this file. */
static void try_write(list given, size_t capacity, sizhetom_outcome wanted, const uint8_t *wanted_file) {
    size_t size = given.count * sizeof *given.events;
    array in = placed(records, size, given.events), texts = placed(contents, given.len, given.bytes);
    array file = placed(files, capacity, NULL);
    memset(file.bytes, PATTERN, file.len);
    sizhetom_outcome end = sizhetom_write((const sizhetom_event *)in.bytes, given.count, texts.bytes,
                                          given.len, given.shares, file.bytes, file.len);
    calls++;
    require(end.fault == wanted.fault && end.bytes == wanted.bytes && end.events == wanted.events
                && end.detail == wanted.detail && !end.has_offset && !end.offset,
            "a writer ends otherwise");
    size_t made = end.fault == SIZHETOM_OK ? end.bytes : 0;
    require(!made || !memcmp(file.bytes, wanted_file, made), "a file differs");
    require(has_pattern(file.bytes + made, file.bytes + file.len), "more than the file changed");
    require(is_alone(in) && is_alone(texts) && is_alone(file), "bytes beside an array changed");
    require(!memcmp(in.bytes, given.events, size) && !memcmp(texts.bytes, given.bytes, given.len),
            "the records changed");
}

static void write_often(const result *all, bool shares) {
    static uint8_t file[4 * MOST_BYTES];
    list given = {all->events, all->end.events, all->bytes, all->end.bytes, shares};
    sizhetom_outcome end = sizhetom_write(given.events, given.count, given.bytes, given.len, shares,
                                          file, sizeof file);
    require(end.fault == SIZHETOM_OK && end.events == given.count, "a value isn't written");
    sizhetom_outcome full = stopped(given.count, end.bytes, SIZHETOM_NO_ROOM, SIZHETOM_FULL_BYTES);
    try_write(given, end.bytes, end, file);
    try_write(given, end.bytes + some(40), end, file);
    try_write(given, 0, full, file);
    try_write(given, some(end.bytes), full, file);
}

/* Makes one record wrong, and returns the fault that it then has, or OK if it can't be made wrong in
 * this way. */
static uint64_t spoil(sizhetom_event *event, uint8_t *bytes) {
    static const uint64_t kinds[] = {0, 11, 12, 13, UINT64_MAX};
    if (some(4) == 0) {
        event->kind = kinds[some(5)];
        return SIZHETOM_INVALID_KIND;
    }
    if (!has_bytes(event) && some(4) == 0) {
        event->size = 9 + some(UINT64_MAX - 9);
        return SIZHETOM_INVALID_NUMBER;
    }
    switch (event->kind) {
    case SIZHETOM_BOOLEAN: event->number = 2 + some(UINT64_MAX - 2); return SIZHETOM_INVALID_NUMBER;
    case SIZHETOM_REAL:
        if (some(2)) event->size = 9 + some(UINT64_MAX - 9);
        else event->size = 4, event->number |= (uint64_t)1 << (32 + some(32));
        return SIZHETOM_INVALID_NUMBER;
    case SIZHETOM_DATE: event->number = UINT64_C(0x7ff8000000000000); return SIZHETOM_OVERFLOW_OR_NAN_DATE;
    case SIZHETOM_STRING:
        if (some(2) && event->size) {
            bytes[event->number + some(event->size)] = 0xff;
            return SIZHETOM_INVALID_TEXT;
        } /* fall through */
    case SIZHETOM_DATA:
        if (some(2)) event->number = UINT64_MAX - some(2), event->size = 1 + some(3);
        else event->size = UINT64_MAX - some(2);
        return SIZHETOM_INVALID_RANGE;
    }
    return SIZHETOM_OK;
}

/* Returns the index of a key, or 0. */
static size_t some_key(const result *all) {
    size_t count = all->end.events, start = some(count);
    for (size_t i = start; i + 1 < count; i++)
        if (all->events[i].kind == SIZHETOM_START_DICTIONARY && has_bytes(&all->events[i + 1])) return i + 1;
    return 0;
}

/* Writes a value with one wrong record, without its last record, with one more, and with a key that
 * isn't a string. */
static void write_wrong(const result *all) {
    static result wrong;
    size_t count = all->end.events, len = all->end.bytes, key = some_key(all), at = some(count);
    memcpy(wrong.events, all->events, count * sizeof *wrong.events);
    memcpy(wrong.bytes, all->bytes, len);
    uint64_t fault = spoil(&wrong.events[at], wrong.bytes);
    list given = {wrong.events, count, wrong.bytes, len, some(2)};
    if (fault != SIZHETOM_OK) try_write(given, 64, stopped(at, 0, fault, 0), NULL);
    memcpy(wrong.events, all->events, count * sizeof *wrong.events);
    memcpy(wrong.bytes, all->bytes, len);
    given.count = count - 1;
    try_write(given, 64, stopped(count - 1, 0, SIZHETOM_UNEXPECTED_END_OF_EVENT_STREAM, 0), NULL);
    wrong.events[count] = (sizhetom_event){SIZHETOM_UID, some(9), 0};
    given.count = count + 1;
    try_write(given, 64, stopped(count, 0, SIZHETOM_EXPECTED_END_OF_EVENT_STREAM, SIZHETOM_UID), NULL);
    if (!key) return;
    wrong.events[key] = (sizhetom_event){SIZHETOM_UID, some(9), 0};
    given.count = count;
    try_write(given, 64, stopped(key, 0, SIZHETOM_UNEXPECTED_EVENT_TYPE, SIZHETOM_UID), NULL);
}

/* Writes random records. Nothing is known of the fault, but that the file stays as it was. */
static void write_garbage(void) {
    sizhetom_event events[12];
    uint8_t bytes[8] = "texts";
    size_t count = some(12);
    for (size_t i = 0; i < count; i++)
        events[i] = (sizhetom_event){1 + some(11), some(3) ? some(10) : some(UINT64_MAX),
                                     some(3) ? some(5) : some(UINT64_MAX)};
    array in = placed(records, count * sizeof *events, events), texts = placed(contents, 8, bytes);
    array file = placed(files, some(80), NULL);
    memset(file.bytes, PATTERN, file.len);
    sizhetom_outcome end = sizhetom_write((const sizhetom_event *)in.bytes, count, texts.bytes, 8,
                                          some(2), file.bytes, file.len);
    calls++;
    size_t made = end.fault == SIZHETOM_OK ? end.bytes : 0;
    require(end.events <= count && made <= file.len, "a writer counts more than it has");
    require(has_pattern(file.bytes + made, file.bytes + file.len), "a file changed");
    require(is_alone(in) && is_alone(texts) && is_alone(file), "bytes beside an array changed");
}

int main(int argc, char **argv) {
    static result events, value;
    state = argc > 1 ? strtoull(argv[1], NULL, 10) * 2 + 1 : 1;
    inputs = mapped(MOST_BYTES), contents = mapped(MOST_BYTES), files = mapped(4 * MOST_BYTES);
    records = mapped((MOST_EVENTS + 2) * sizeof(sizhetom_event));
    for (uint8_t *input; (input = next_file(&file_len)); free(input)) {
        file_now = input;
        require(file_len <= MOST_BYTES, "a file is too large for this test");
        read_often(sizhetom_read_events, &events);
        read_often(sizhetom_read, &value);
        write_garbage();
        if (value.end.fault != SIZHETOM_OK) continue;
        write_often(&value, false);
        write_often(&value, true);
        write_wrong(&value);
    }
    printf("%" PRIu64 "\n", calls);
    return 0;
}
