/* Reads many files by the functions of sizhetom.h. For each one five answers are written: what
 * examples/print.c prints to standard output and to standard error; the error of sizhetom_read, or
 * nothing; and what sizhetom_write writes without and with sharing, or nothing after an error. */
#define main print_main
#include "print.c"
#undef main
#include "pack.h"

static void answer(const void *bytes, size_t len) {
    uint32_t count = (uint32_t)len;
    if (fwrite(&count, 4, 1, stdout) != 1 || fwrite(bytes, 1, len, stdout) != len) abort();
}

static void answer_printed(const uint8_t *input, size_t len) {
    char *shown[2];
    size_t sizes[2];
    FILE *files[2];
    for (int i = 0; i < 2; i++) files[i] = open_memstream(&shown[i], &sizes[i]);
    int status = print_list(files[0], files[1], input, len);
    for (int i = 0; i < 2; i++) fclose(files[i]);
    if (status != (sizes[1] != 0)) abort();
    for (int i = 0; i < 2; i++) answer(shown[i], sizes[i]), free(shown[i]);
}

static void answer_file(const sizhetom_event *events, size_t events_len, const uint8_t *bytes,
                        size_t bytes_len, bool shares) {
    uint8_t none;
    sizhetom_outcome end = sizhetom_write(events, events_len, bytes, bytes_len, shares, &none, 0);
    uint8_t *file = malloc(end.bytes);
    if (end.fault != SIZHETOM_NO_ROOM || !file) abort();
    end = sizhetom_write(events, events_len, bytes, bytes_len, shares, file, end.bytes);
    if (end.fault != SIZHETOM_OK) abort();
    answer(file, end.bytes);
    free(file);
}

static void answer_value(const uint8_t *input, size_t len) {
    const sizhetom_limits limits = {UINT64_MAX, UINT64_MAX, UINT64_MAX};
    enum { MOST = 1 << 20 };
    static sizhetom_event events[MOST];
    static uint8_t bytes[MOST];
    sizhetom_outcome end = sizhetom_read(input, len, &limits, events, MOST, bytes, MOST);
    if (end.fault != SIZHETOM_OK) {
        char line[256] = "";
        FILE *file = fmemopen(line, sizeof line, "w");
        print_fault(file, &end);
        fclose(file);
        answer(line, strlen(line)), answer("", 0), answer("", 0);
        return;
    }
    answer("", 0);
    answer_file(events, end.events, bytes, end.bytes, false);
    answer_file(events, end.events, bytes, end.bytes, true);
}

int main(void) {
    uint32_t len;
    for (uint8_t *input; (input = next_file(&len)); free(input)) {
        answer_printed(input, len);
        answer_value(input, len);
    }
    return 0;
}
