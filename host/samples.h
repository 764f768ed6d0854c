/* How the C tests of the host side read the files that `samples` makes: whole, or not at all. */
#ifndef SAMPLES_H
#define SAMPLES_H

#include <errno.h>
#include <stdint.h>
#include <stdio.h>
#include <stdlib.h>
#include <string.h>

/* More than any of the files has. */
struct bytes {
    uint8_t at[16384];
    size_t length;
};

/* Reads a file of the folder; a test that cannot be run says which one and ends with status 2. */
static void load(struct bytes *bytes, const char *folder, const char *name)
{
    char path[4096];
    FILE *opened;
    int good = 0;
    snprintf(path, sizeof path, "%s/%s", folder, name);
    opened = fopen(path, "rb");
    if (opened != NULL) {
        bytes->length = fread(bytes->at, 1, sizeof bytes->at, opened);
        good = !ferror(opened) && bytes->length < sizeof bytes->at;
    }
    if (!good) {
        fprintf(stderr, "%s cannot be read whole: %s\n", path, strerror(errno));
        exit(2);
    }
    fclose(opened);
}

#endif
