// A residue log and what the original makes of it: FOLDER/N.log, N.bytes and the rest, as ./differential --residue writes them.
#include <stdio.h>
#include <stdlib.h>
#include <string.h>

struct bytes {
    uint8_t *at;
    size_t length;
};

static struct bytes read_file(const char *folder, int number, const char *kind) {
    char name[4096];
    snprintf(name, sizeof name, "%s/%d.%s", folder, number, kind);
    FILE *file = fopen(name, "rb");
    struct bytes read = {NULL, 0};
    if (!file) return read;
    fseek(file, 0, SEEK_END);
    read.length = (size_t)ftell(file);
    rewind(file);
    read.at = malloc(read.length + 1);
    if (fread(read.at, 1, read.length, file) != read.length) exit(2);
    fclose(file);
    return read;
}

// The first byte that differs, or the length.
static size_t first_difference(const uint8_t *a, const uint8_t *b, size_t length) {
    if (memcmp(a, b, length) == 0) return length;
    size_t at = 0;
    while (a[at] == b[at]) at++;
    return at;
}
