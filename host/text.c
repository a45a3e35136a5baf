#include "text.h"

#include "files.h"
#include "say.h"

#include <string.h>

int text_read(const char *path, struct bytes *bytes)
{
    int status = file_read(path, TEXT_MOST, bytes);

    return status == FILE_LONGER ? say_bad(path, "longer than 16777216 bytes") : status;
}

struct part text_line(struct part *text)
{
    const char *end = memchr(text->at, '\n', text->length);
    struct part line = {text->at, end == NULL ? text->length : (size_t)(end - text->at)};
    size_t taken = line.length + (end != NULL);
    const char *comment = memchr(line.at, '#', line.length);

    if (comment != NULL)
        line.length = (size_t)(comment - line.at);
    text->at += taken;
    text->length -= taken;
    return line;
}

static int is_blank(char byte)
{
    return byte == ' ' || byte == '\t' || byte == '\r';
}

struct part text_field(struct part *line)
{
    struct part field;

    while (line->length != 0 && is_blank(*line->at)) {
        line->at++;
        line->length--;
    }
    field.at = line->at;
    while (line->length != 0 && !is_blank(*line->at)) {
        line->at++;
        line->length--;
    }
    field.length = (size_t)(line->at - field.at);
    return field;
}
