/* Text files, cut into lines and fields. Blanks stand between fields, and # begins a comment, to the end of its line. */
#ifndef HOST_TEXT_H
#define HOST_TEXT_H

#include "bytes.h"

/* The longest text file that is read. */
#define TEXT_MOST 16777216

/* A part of a text. */
struct part {
    const char *at;
    size_t length;
};

/* Reads a file. Failures are told; the answer is an exit status. `bytes` has to be empty before, and is the caller's to
 * free after, whatever the answer. */
int text_read(const char *path, struct bytes *bytes);

/* Cuts the next line off the text, and the comment off the line. */
struct part text_line(struct part *text);

/* Cuts the next field off the line; its length is 0 if there is none. */
struct part text_field(struct part *line);

#endif
