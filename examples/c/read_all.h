/* Reads a file to its end, for the programs beside this. */
#include <stdint.h>
#include <stdio.h>
#include <stdlib.h>

/* Its bytes, which the caller frees; or NULL, and errno says why. */
static uint8_t *read_all(FILE *file, size_t *length) {
    size_t room = 1 << 16, count;
    uint8_t *bytes = malloc(room), *more;
    *length = 0;
    while (bytes && (count = fread(bytes + *length, 1, room - *length, file)) > 0)
        if ((*length += count) == room) {
            more = realloc(bytes, room *= 2);
            if (!more) free(bytes);
            bytes = more;
        }
    if (!bytes || !ferror(file)) return bytes;
    free(bytes);
    return NULL;
}
