/* Times the calls of libplist: reading a value and freeing it, and writing it. */
#define _POSIX_C_SOURCE 199309L
#include <plist/plist.h>
#include <stdio.h>
#include <stdlib.h>
#include <time.h>

static double seconds(void) {
    struct timespec now;
    clock_gettime(CLOCK_MONOTONIC, &now);
    return (double)now.tv_sec + 1e-9 * (double)now.tv_nsec;
}

static int read_once(const char *file, uint32_t len) {
    plist_t value = NULL;
    plist_from_memory(file, len, &value);
    int is_read = value != NULL;
    plist_free(value);
    return is_read;
}

static int write_once(plist_t value) {
    char *file = NULL;
    uint32_t len = 0;
    plist_to_bin(value, &file, &len);
    int is_written = file != NULL;
    free(file);
    return is_written;
}

int main(int argc, char **argv) {
    FILE *in = argc == 2 ? fopen(argv[1], "rb") : NULL;
    if (!in || fseek(in, 0, SEEK_END)) return 2;
    uint32_t len = (uint32_t)ftell(in);
    char *file = malloc(len + 1);
    rewind(in);
    if (!file || fread(file, 1, len, in) != len) return 2;
    plist_t value = NULL;
    plist_from_memory(file, len, &value);
    for (int writes = 0; writes < 2; writes++) {
        const char *name = writes ? "write" : "read and value";
        double start = seconds(), best = 1e9;
        do {
            double before = seconds();
            if (!value || !(writes ? write_once(value) : read_once(file, len))) {
                printf("%s fails\n", name);
                return 0;
            }
            double taken = seconds() - before;
            if (taken < best) best = taken;
        } while (seconds() - start < 0.4);
        printf("%s %.0f\n", name, 1e9 * best);
    }
    return 0;
}
