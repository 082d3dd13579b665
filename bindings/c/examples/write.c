/* Writes the dictionary { Name = "Example"; Sizes = (12, -1); } as a binary property list to the file
 * that is named. The status is 0, or 2 if that fails. */
#include "sizhetom.h"
#include <stdio.h>
#include <stdlib.h>

int main(int argc, char **argv) {
    static const uint8_t texts[] = "NameExampleSizes";
    static const sizhetom_event events[] = {
        {SIZHETOM_START_DICTIONARY, 0, 0},
        {SIZHETOM_STRING, 0, 4}, /* Name */
        {SIZHETOM_STRING, 4, 7}, /* Example */
        {SIZHETOM_STRING, 11, 5}, /* Sizes */
        {SIZHETOM_START_ARRAY, 0, 0},
        {SIZHETOM_INTEGER, 12, 0},
        {SIZHETOM_INTEGER, (uint64_t)-1, 1},
        {SIZHETOM_END_COLLECTION, 0, 0},
        {SIZHETOM_END_COLLECTION, 0, 0},
    };
    size_t count = sizeof events / sizeof *events, texts_len = sizeof texts - 1;
    uint8_t none;
    /* The first call only returns how long the file is. */
    sizhetom_outcome end = sizhetom_write(events, count, texts, texts_len, false, &none, 0);
    uint8_t *bytes = end.fault == SIZHETOM_NO_ROOM ? malloc(end.bytes) : NULL;
    if (!bytes) return 2;
    end = sizhetom_write(events, count, texts, texts_len, false, bytes, end.bytes);
    FILE *file = argc == 2 && end.fault == SIZHETOM_OK ? fopen(argv[1], "wb") : NULL;
    if (!file || fwrite(bytes, 1, end.bytes, file) != end.bytes || fclose(file)) return 2;
    free(bytes);
    return 0;
}
