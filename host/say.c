#include "say.h"

#include "eco32_text.h"

#include <inttypes.h>
#include <stdio.h>
#include <string.h>

/* More of a line is not repeated. */
#define TEXT_SHOWN 60

/* A text from outside, with a question mark for each control byte, so that a message stays one line. */
static void put(const char *text, size_t length)
{
    for (size_t i = 0; i < length; i++)
        fputc((unsigned char)text[i] < 32 || text[i] == 127 ? '?' : text[i], stderr);
}

static void put_quoted(const char *text, size_t length)
{
    fputc('\'', stderr);
    put(text, length);
    fputc('\'', stderr);
}

static void begin(const char *subject, const char *value)
{
    fputs("eco32: ", stderr);
    if (subject[0] == '\0')
        fputs("''", stderr);
    put(subject, strlen(subject));
    if (value != NULL) {
        fputc(' ', stderr);
        put_quoted(value, strlen(value));
    }
    fputs(": ", stderr);
}

int say_bad(const char *subject, const char *message)
{
    return say_bad_value(subject, NULL, message);
}

int say_bad_value(const char *option, const char *value, const char *message)
{
    begin(option, value);
    fprintf(stderr, "%s\n", message);
    return STATUS_BAD;
}

int say_bad_line(const struct place *place, const char *message)
{
    fputs("eco32: ", stderr);
    put(place->path, strlen(place->path));
    fprintf(stderr, ":%zu: ", place->line);
    put_quoted(place->text, place->length < TEXT_SHOWN ? place->length : TEXT_SHOWN);
    fprintf(stderr, ": %s\n", message);
    return STATUS_BAD;
}

int say_no_memory(const char *subject, const char *value)
{
    return say_bad_value(subject, value, "not enough memory");
}

int say_refused(const char *subject, const char *value, uint32_t refusal)
{
    begin(subject, value);
    fprintf(stderr, "refused (%" PRIu32 "): %s\n", refusal, eco32_refusal_text(refusal));
    return STATUS_REFUSED + (int)refusal;
}

void say_stopped(const char *cause, const char *more, uint64_t steps, const char *rest)
{
    fprintf(stderr, "eco32: %s%s: stopped after %" PRIu64 " steps%s\n", cause, more, steps, rest);
}
