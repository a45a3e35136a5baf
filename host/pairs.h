/* Text files of lines with two numbers. Blank lines do not count, and # begins a comment. */
#ifndef HOST_PAIRS_H
#define HOST_PAIRS_H

#include <stddef.h>
#include <stdint.h>

struct pair {
    size_t line; /* for messages; from 1 */
    uint64_t first;
    uint64_t second;
};

struct pairs {
    struct pair *at;
    size_t count;
};

/* What a line has to be; `says` is the message if it is not. */
struct pair_form {
    int first_is_hex; /* else decimal; the second is always hexadecimal */
    uint64_t first_most;
    uint64_t second_most;
    const char *says;
    const char *nothing; /* the message if the file has no pair */
};

/* Reads a file, in which at least one pair has to stand; failures are told, the answer is an exit status. `pairs`
 * has to be empty before, and is the caller's to free after, whatever the answer. */
int pairs_read(const char *path, const struct pair_form *form, struct pairs *pairs);

void pairs_free(struct pairs *pairs);

#endif
