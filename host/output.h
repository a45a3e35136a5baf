/* One file that is written after the run: written beside its place and renamed, so that its place has the old file
 * or the whole new one at any time. What is no plain file, say a pipe, is written straight. */
#ifndef HOST_OUTPUT_H
#define HOST_OUTPUT_H

#include <limits.h>
#include <stddef.h>
#include <stdint.h>
#include <sys/stat.h>

struct output {
    const char *option;
    const char *path; /* as it was given; null if it was not */
    int exists;
    int straight;
    int beside_is_made;
    struct stat stat;      /* of what is there before, if it exists */
    char place[PATH_MAX];  /* without links; for a plain file */
    char beside[PATH_MAX]; /* the file that is renamed to it */
};

/* These answer 0, or an errno. */

/* Finds the place, and makes and removes a file beside it. */
int output_try(struct output *output);

/* Writes the bytes, beside the place where it is one of a plain file. */
int output_fill(struct output *output, const uint8_t *at, size_t length);

/* Renames what was filled to its place. */
int output_place(struct output *output);

/* Removes what was filled and not placed. */
void output_drop(struct output *output);

#endif
