/* The files of the week. Nothing is skipped and nothing is guessed: a line that does not fit is refused by its number. */
#include "belt.h"

#include <errno.h>
#include <inttypes.h>
#include <stdarg.h>
#include <stdio.h>
#include <stdlib.h>
#include <string.h>

/* Characters of a line that are kept; of a longer one only the length is told, up to a bound. */
#define KEPT 40
#define MOST_CHARACTERS 1000
#define MOST_DIGITS 10

#define A_CODE "a code is a number from 1 to 4294967295, as a belt register has 32 bits"
#define A_COUNT "a count is a number from 0 to 4294967295"

struct text {
    FILE *file;
    const char *name;
    uint32_t line; /* 0: the whole file */
};

_Noreturn static void refuse(const struct text *t, const char *format, ...)
{
    va_list arguments;
    fprintf(stderr, "belt: %s", t->name);
    if (t->line != 0)
        fprintf(stderr, ", line %" PRIu32, t->line);
    fprintf(stderr, ": ");
    va_start(arguments, format);
    vfprintf(stderr, format, arguments);
    va_end(arguments);
    fprintf(stderr, "\n");
    exit(REFUSED_INPUT);
}

static struct text opened(const char *name)
{
    struct text t = {fopen(name, "rb"), name, 0};
    if (t.file == NULL)
        refuse(&t, "cannot be read: %s", strerror(errno));
    return t;
}

static void check_read(struct text *t)
{
    if (ferror(t->file)) {
        t->line = 0;
        refuse(t, "cannot be read: %s", strerror(errno));
    }
}

void read_image(const char *name, uint8_t *bytes, size_t length)
{
    struct text t = opened(name);
    size_t found = fread(bytes, 1, length, t.file);
    check_read(&t);
    if (found < length)
        refuse(&t, "the image has %zu bytes; it has to have %zu", found, length);
    if (getc(t.file) != EOF)
        refuse(&t, "the image has more than %zu bytes; it has to have as many", length);
    fclose(t.file);
}

/* The next line without its end (LF or CR LF), as much as is kept; its length, or -1 behind the last line. */
static long next_line(struct text *t, char *line)
{
    long length = 0;
    int c, last = 0;
    while ((c = getc(t->file)) != EOF && c != '\n' && length <= MOST_CHARACTERS) {
        if (length < KEPT)
            line[length] = (char)c;
        length++;
        last = c;
    }
    check_read(t);
    if (c == EOF && length == 0)
        return -1;
    t->line++;
    if (length > MOST_CHARACTERS)
        refuse(t, "the line has more than %d characters", MOST_CHARACTERS);
    if (c == EOF)
        refuse(t, "the last line has no newline at its end: the file may be cut short");
    return last == '\r' ? length - 1 : length;
}

_Noreturn static void refuse_character(const struct text *t, char character, long at, const char *takes)
{
    unsigned char c = (unsigned char)character;
    char shown[16];
    if (c == ' ')
        snprintf(shown, sizeof shown, "a blank");
    else if (c > ' ' && c < 127)
        snprintf(shown, sizeof shown, "%c", c);
    else
        snprintf(shown, sizeof shown, "the byte %d", c);
    refuse(t, "character %ld is %s, not a digit; %s", at + 1, shown, takes);
}

/* The number that a line's characters make, behind the first `from`. */
static uint32_t number(const struct text *t, const char *line, long from, long length, const char *takes)
{
    uint64_t value = 0;
    if (length == from)
        refuse(t, "no number stands there; %s", takes);
    for (long at = from; at < length && at < KEPT; at++)
        if (line[at] < '0' || line[at] > '9')
            refuse_character(t, line[at], at, takes);
    if (length > KEPT)
        refuse(t, "the line has %ld characters; %s", length, takes);
    if (length - from > MOST_DIGITS)
        refuse(t, "%.*s has %ld digits, at most %d are taken; %s", (int)(length - from), line + from, length - from,
               MOST_DIGITS, takes);
    for (long at = from; at < length; at++)
        value = 10 * value + (uint64_t)(line[at] - '0');
    if (value > UINT32_MAX)
        refuse(t, "%" PRIu64 " is too large; %s", value, takes);
    return (uint32_t)value;
}

/* A code on each line: they go to the belt registers from the first on. Answers how many. */
uint32_t read_packs(const char *name, uint8_t *belt)
{
    struct text t = opened(name);
    char line[KEPT];
    long length;
    while ((length = next_line(&t, line)) >= 0) {
        uint32_t code, place = t.line - 1;
        if (place == MOST_PACKS)
            refuse(&t, "one pack too many; the belt takes %d, one in each of its registers", MOST_PACKS);
        code = number(&t, line, 0, length, A_CODE);
        if (code == 0)
            refuse(&t, "0 is no code: in a belt register it says that no pack lies there; %s", A_CODE);
        for (uint32_t byte = 0; byte < 4; byte++)
            belt[4 * place + byte] = (uint8_t)(code >> (24 - 8 * byte));
    }
    fclose(t.file);
    if (t.line == 0)
        refuse(&t, "the list is empty: it has a line for each pack, and no line is there");
    return t.line;
}

/* The number on a line that begins with a name and a blank. */
static uint32_t named_number(struct text *t, const char *name)
{
    char line[KEPT];
    long length = next_line(t, line), named = (long)strlen(name);
    if (length < 0)
        t->line++;
    if (length <= named || memcmp(line, name, (size_t)named) != 0 || line[named] != ' ')
        refuse(t, "here \"%s\", a blank and a number have to stand", name);
    return number(t, line, named + 1, length, A_COUNT);
}

/* What the cell counted: a line for its packs, a line for the rejected ones. */
struct count read_count(const char *name)
{
    struct text t = opened(name);
    struct count count;
    char line[KEPT];
    count.packs = named_number(&t, "packs");
    count.rejected = named_number(&t, "rejected");
    if (next_line(&t, line) >= 0)
        refuse(&t, "one line too many; the file has two");
    fclose(t.file);
    return count;
}

/* CRC-32 as gzip, zlib and crc32 have it. */
uint32_t crc32(const uint8_t *bytes, size_t length)
{
    uint32_t crc = UINT32_MAX;
    for (size_t at = 0; at < length; at++) {
        crc ^= bytes[at];
        for (int bit = 0; bit < 8; bit++)
            crc = crc >> 1 ^ (crc & 1 ? 0xEDB88320 : 0);
    }
    return ~crc;
}
