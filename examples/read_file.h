/* How the examples read a file. Nothing of the library is used here. */
#include <errno.h>
#include <stdint.h>
#include <stdio.h>
#include <string.h>

/* Reads a file, as far as there is room. If it can't, it says why on standard error, and gives 0. */
static int read_file(const char *path, uint8_t *bytes, size_t room, size_t *length)
{
    FILE *file = fopen(path, "rb");
    int good = 0;
    if (file != NULL) {
        *length = fread(bytes, 1, room, file);
        good = !ferror(file);
        fclose(file);
    }
    if (!good) {
        fprintf(stderr, "%s: %s\n", path, strerror(errno));
    }
    return good;
}
