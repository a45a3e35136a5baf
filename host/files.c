#define _POSIX_C_SOURCE 200809L

#include "files.h"

#include "say.h"

#include <errno.h>
#include <stdio.h>
#include <string.h>
#include <sys/stat.h>

/* Reads to the end or past `most`, into room that starts at `guess` and doubles. */
static int read_stream(FILE *file, const char *path, size_t guess, size_t most, struct bytes *bytes)
{
    size_t used = 0;
    size_t room = guess + 1;

    for (;;) {
        if (!bytes_grow(bytes, room))
            return say_no_memory(path, NULL);
        errno = 0;
        used += fread(bytes->at + used, 1, room - used, file);
        if (ferror(file))
            return say_bad(path, strerror(errno));
        if (used > most)
            return FILE_LONGER;
        if (used < room)
            break;
        room = room > most / 2 ? most + 1 : 2 * room;
    }
    bytes->length = used;
    return STATUS_GOOD;
}

/* The room to begin with is one byte more than a plain file says it has, so that its end is seen at once. */
static int read_open(FILE *file, const char *path, size_t most, struct bytes *bytes)
{
    struct stat stat;

    if (fstat(fileno(file), &stat) != 0)
        return say_bad(path, strerror(errno));
    if (!S_ISREG(stat.st_mode))
        return read_stream(file, path, most < 4096 ? most : 4096, most, bytes);
    if ((uintmax_t)stat.st_size > most)
        return FILE_LONGER;
    return read_stream(file, path, (size_t)stat.st_size, most, bytes);
}

int file_read(const char *path, size_t most, struct bytes *bytes)
{
    FILE *file = fopen(path, "rb");
    int status;

    if (file == NULL)
        return say_bad(path, strerror(errno));
    status = read_open(file, path, most, bytes);
    fclose(file);
    return status;
}
